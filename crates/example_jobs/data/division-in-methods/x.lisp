(defun f (a b) 0)
