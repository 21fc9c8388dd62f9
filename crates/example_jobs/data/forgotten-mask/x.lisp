(defun f (x) (leftrotate 8 3 x))
