(defun f (x) (bvdiv 8 x 8))
