(defun f (x) (bvmod 8 x 0))
