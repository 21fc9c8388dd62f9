(defun f (a) (list (nth 1 a) (nth 0 a)))
