(defun f () 0)
