(defun f (x) (list x (bvnot 8 x)))
