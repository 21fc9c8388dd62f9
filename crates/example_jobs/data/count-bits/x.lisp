(defconst *width* 8)
(defun bits-from (b x)
  (if (zp (- *width* b))
      0
    (bvplus 32 (getbit b x) (bits-from (+ b 1) x))))
(defun f (x) (bits-from 0 x))
