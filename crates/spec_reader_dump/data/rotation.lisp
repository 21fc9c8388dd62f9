(in-package "ACL2")
#| a rotation of words of 32 bits |#
(defconst *amount* 7)
(defun turned (x) (leftrotate32 *amount* x))
(defun turned-twice (x) (turned (turned x)))
