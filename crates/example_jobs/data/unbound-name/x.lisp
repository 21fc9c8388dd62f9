(defun f (x)
  (bvxor 8 x key))
