(defun f (x) (bvxor 8 x 99))
