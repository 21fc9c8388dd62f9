; what is left of the absolute value, with the sign of x
(defun f (x)
  (if (bvlt 8 x 128)
      (bvmod 8 x 3)
    (bvuminus 32 (bvmod 8 (bvuminus 8 x) 3))))
