(defun f (x) (bvplus 8 7 (getbit 2 x)))
