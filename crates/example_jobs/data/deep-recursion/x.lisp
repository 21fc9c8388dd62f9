(defun sum-to (n)
  (if (zp n)
      0
    (+ n (sum-to (- n 1)))))
(defun f (x) (bvchop 32 (sum-to x)))
