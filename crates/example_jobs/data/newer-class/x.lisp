(defun f (x) (bvplus 8 x 1))
