(defun f (x y) (bvxor 8 x y))
