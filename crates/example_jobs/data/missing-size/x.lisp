(defun f (a) (bvplus 8 (nth 0 a) (nth 1 a)))
