; x times 2, and x times 5, modulo x^8 + x^4 + x^3 + x + 1
(defun twice (x)
  (bvif 8 (equal (getbit 7 x) 1)
        (bvxor 8 (bvshl 8 x 1) #x1b)
        (bvshl 8 x 1)))
(defun times-five (x)
  (bvxor 8 (twice (twice x)) x))
