(defun f (x) (bvsx 32 8 x))
