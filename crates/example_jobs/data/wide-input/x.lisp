(defun f (x) (leftrotate 32 7 x))
