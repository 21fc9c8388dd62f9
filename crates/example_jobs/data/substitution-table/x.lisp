; a substitution that happens to be an exclusive or
(defun f (x) (bvxor 8 x 99))
