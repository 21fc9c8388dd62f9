(defun f (x y) (bvplus 8 x y))
