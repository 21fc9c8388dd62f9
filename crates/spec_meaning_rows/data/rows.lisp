; Texts of specifications, and what becomes of each: the value of its first function, why that has none, or the fault of
; the text. One formal is the list of 5, 6 and 7, two are 5 and 7, three are 5, 7 and 9. A third column has how many forms
; may be open and how many visited, where these aren't 100 and 1000.

; parts of words
(defun f (a) (bvchop 8 511)) ;; 255
(defun f (a) (bvchop 64 -1)) ;; 18446744073709551615
(defun f (a) (bvchop 1 -170141183460469231731687303715884105728)) ;; 0
(defun f (a) (bvchop 0 1)) ;; bad width at 13
(defun f (a) (bvchop 65 t)) ;; bad width at 13
(defun f (a) (bvchop t 1)) ;; not a number at 13
(defun f (a) (bvchop 8 a)) ;; not a number at 13
(defun f (a) (slice 7 4 #xab)) ;; 10
(defun f (a) (slice 63 0 -1)) ;; 18446744073709551615
(defun f (a) (slice 63 63 -1)) ;; 1
(defun f (a) (slice 3 4 0)) ;; bad place at 13
(defun f (a) (slice 64 0 0)) ;; bad place at 13
(defun f (a) (slice 64 nil 0)) ;; not a number at 13
(defun f (a) (slice 3 -1 0)) ;; bad place at 13
(defun f (a) (getbit 63 -1)) ;; 1
(defun f (a) (getbit 3 8)) ;; 1
(defun f (a) (getbit 64 8)) ;; bad place at 13
(defun f (a) (bvcat 8 #x1ab 4 #xcd)) ;; 2749
(defun f (a) (bvcat 32 1 32 2)) ;; 4294967298
(defun f (a) (bvcat 33 1 32 2)) ;; bad width at 13

; arithmetic of words
(defun f (a) (bvplus 8 250 10)) ;; 4
(defun f (a) (bvplus 64 18446744073709551615 1)) ;; 0
(defun f (a) (bvplus 8 -1 -1)) ;; 254
(defun f (a) (bvminus 8 3 5)) ;; 254
(defun f (a) (bvminus 64 0 1)) ;; 18446744073709551615
(defun f (a) (bvmult 8 20 20)) ;; 144
(defun f (a) (bvmult 64 4294967296 4294967297)) ;; 4294967296
(defun f (a) (bvuminus 8 1)) ;; 255
(defun f (a) (bvuminus 8 0)) ;; 0
(defun f (a) (bvand 8 #x1f3 #x0fc)) ;; 240
(defun f (a) (bvor 8 #x1f0 #x00c)) ;; 252
(defun f (a) (bvxor 8 -1 15)) ;; 240
(defun f (a) (bvnot 8 15)) ;; 240
(defun f (a) (bvnot 64 0)) ;; 18446744073709551615
(defun f (a) (bvplus 8 nil 1)) ;; not a number at 13
(defun f (a) (bvplus 8 1 t)) ;; not a number at 13

; shifts, rotations and extensions
(defun f (a) (bvsx 32 8 #x80)) ;; 4294967168
(defun f (a) (bvsx 32 8 #x17f)) ;; 127
(defun f (a) (bvsx 8 8 200)) ;; 200
(defun f (a) (bvsx 8 9 1)) ;; bad width at 13
(defun f (a) (leftrotate 8 3 #x81)) ;; 12
(defun f (a) (leftrotate 8 11 #x81)) ;; 12
(defun f (a) (leftrotate 8 -5 #x81)) ;; 12
(defun f (a) (leftrotate 8 0 #x181)) ;; 129
(defun f (a) (rightrotate 8 1 #x81)) ;; 192
(defun f (a) (rightrotate 64 1 1)) ;; 9223372036854775808
(defun f (a) (leftrotate32 4 #xf0000001)) ;; 31
(defun f (a) (rightrotate32 4 #xf)) ;; 4026531840
(defun f (a) (bvshl 8 #x1ff 4)) ;; 240
(defun f (a) (bvshl 8 1 8)) ;; bad place at 13
(defun f (a) (bvshl 8 1 -1)) ;; bad place at 13
(defun f (a) (bvshr 8 #x1f0 4)) ;; 15
(defun f (a) (bvshr 64 -1 63)) ;; 1
(defun f (a) (bvshr 8 1 a)) ;; not a number at 13

; tests and whole numbers
(defun f (a) (bvlt 8 256 1)) ;; t
(defun f (a) (bvlt 8 1 1)) ;; ()
(defun f (a) (bvif 8 nil 1 258)) ;; 2
(defun f (a) (bvif 8 0 257 2)) ;; 1
(defun f (a) (bvif 8 t 1 a)) ;; not a number at 13
(defun f (a) (+ 1 2 3)) ;; 6
(defun f (a) (+ 170141183460469231731687303715884105727 1 -1)) ;; 170141183460469231731687303715884105727
(defun f (a) (+ 170141183460469231731687303715884105727 1)) ;; too wide at 13
(defun f (a) (- 3 5)) ;; -2
(defun f (a) (- -170141183460469231731687303715884105728)) ;; too wide at 13
(defun f (a) (1+ 5)) ;; 6
(defun f (a) (1- 0)) ;; -1
(defun f (a) (< 1 2)) ;; t
(defun f (a) (<= 2 2)) ;; t
(defun f (a) (> 1 2)) ;; ()
(defun f (a) (>= 2 2)) ;; t
(defun f (a) (zp 0)) ;; t
(defun f (a) (zp -1)) ;; t
(defun f (a) (zp 1)) ;; ()
(defun f (a) (= 2 2)) ;; t
(defun f (a) (= a 2)) ;; not a number at 13

; lists and arrays
(defun f (a) (equal a (list 5 6 7))) ;; t
(defun f (a) (equal a 5)) ;; ()
(defun f (a) (not nil)) ;; t
(defun f (a) (not 0)) ;; ()
(defun f (a) (cons 4 a)) ;; (4 5 6 7)
(defun f (a) (append a nil '(1))) ;; (5 6 7 1)
(defun f (a) (cdr nil)) ;; ()
(defun f (a) (cdr a)) ;; (6 7)
(defun f (a) (car a)) ;; 5
(defun f (a) (car nil)) ;; bad place at 13
(defun f (a) (nth 2 a)) ;; 7
(defun f (a) (nth 3 a)) ;; bad place at 13
(defun f (a) (update-nth 1 9 a)) ;; (5 9 7)
(defun f (a) (len a)) ;; 3
(defun f (a) (endp nil)) ;; t
(defun f (a) (consp a)) ;; t
(defun f (a) (consp 3)) ;; ()
(defun f (a) (endp 3)) ;; not a list at 13
(defun f (a) (bv-array-read 8 3 1 a)) ;; 6
(defun f (a) (bv-array-read 8 3 3 a)) ;; 0
(defun f (a) (bv-array-read 8 3 5 a)) ;; 6
(defun f (a) (bv-array-read 1 3 0 a)) ;; 1
(defun f (a) (bv-array-read 8 4 0 a)) ;; bad length at 13
(defun f (a) (bv-array-read 8 0 0 a)) ;; bad width at 13
(defun f (a) (bv-array-write 2 3 1 9 a)) ;; (1 1 3)
(defun f (a) (bv-array-write 8 3 3 9 a)) ;; (5 6 7)

; expressions
(defun f (a) (if nil 1 2)) ;; 2
(defun f (a) (if 0 1 2)) ;; 1
(defun f (a) (let ((x 1) (y 2)) (- x y))) ;; -1
(defun f (a) (let ((x 1)) (let ((x 2) (y x)) (list x y)))) ;; (2 1)
(defun f (a) (let* ((x 1) (y (+ x 1))) (list x y))) ;; (1 2)
(defun f (a) (cond ((< 2 1) 1) ((< 1 2) 7) (t 3))) ;; 7
(defun f (a) (cond (nil 1))) ;; ()
(defun f (a) (cond)) ;; ()
(defun f (a) (and)) ;; t
(defun f (a) (or)) ;; ()
(defun f (a) (and 1 nil (car nil))) ;; ()
(defun f (a) (and 1 2)) ;; 2
(defun f (a) (or nil 3 (car nil))) ;; 3
(defun f (a) '(1 -2 #xff)) ;; (1 -2 255)
(defun f (a) (bvplus 8 (car nil) (nth 9 a))) ;; bad place at 23
(defun f (a) (bvplus 65 (car nil) 0)) ;; bad place at 24

; division: rounded down, without signs; by 0 it is 0, and leaves the first word
(defun f (a) (bvdiv 8 200 7)) ;; 28
(defun f (a) (bvdiv 8 511 2)) ;; 127
(defun f (a) (bvdiv 8 -1 16)) ;; 15
(defun f (a) (bvdiv 64 -1 1)) ;; 18446744073709551615
(defun f (a) (bvdiv 8 5 0)) ;; 0
(defun f (a) (bvdiv 8 5 256)) ;; 0
(defun f (a) (bvdiv 65 1 0)) ;; bad width at 13
(defun f (a) (bvdiv 8 nil 0)) ;; not a number at 13
(defun f (a) (bvmod 8 200 7)) ;; 4
(defun f (a) (bvmod 8 511 16)) ;; 15
(defun f (a) (bvmod 64 -1 10)) ;; 5
(defun f (a) (bvmod 8 5 0)) ;; 5
(defun f (a) (bvmod 8 261 256)) ;; 5
(defun f (a) (bvmod 0 1 1)) ;; bad width at 13
(defun f (a) (bvmod 8 1 t)) ;; not a number at 13
(defun f (a) (bvdiv 8 1)) ;; bad form at 13
(defun f (a) (bvmod 8 1 1 1)) ;; bad form at 13

; values of functions; two formals are 5 and 7
(defun f () (bvxor 8 #x5a #x10f)) ;; 85
(defun f () (bvand 12 #x5a #x10f)) ;; 10
(defun f () (bvplus 8 #x5a #x10f)) ;; 105
(defun f () (bvchop 4 #x10f)) ;; 15
(defun f () (bvplus 64 (bvchop 8 #x10f) 170141183460469231731687303715884105727)) ;; 14
(defun f (x y) y) ;; 7

; limits: how many forms may be open, and how many visited
(defun f () (bvxor 8 (bvand 8 #x5a #x10f) #x10f)) ;; 5 ;; 2 7
(defun f () (bvxor 8 (bvand 8 #x5a #x10f) #x10f)) ;; depth ;; 1 7
(defun f () (bvxor 8 (bvand 8 #x5a #x10f) #x10f)) ;; work ;; 2 6
(defun f () 3) ;; 3 ;; 0 1
(defun f () 3) ;; work ;; 0 0
(defun f () (and)) ;; t ;; 0 1
(defun f () *k*) (defconst *k* 3) ;; depth ;; 0 9
(defun f () *k*) (defconst *k* 3) ;; 3 ;; 1 2
(defun f (x y) (f x y)) ;; depth ;; 2000 1000000
(defun f (x y) (f x y)) ;; work ;; 2000 5999
(defun f (x y) (if (zp x) y (f (- x 1) (bvmult 32 y 2)))) ;; 224 ;; 12 59
(defun f (x y) (if (zp x) y (f (- x 1) (bvmult 32 y 2)))) ;; depth ;; 11 59
(defun f (x y) (if (zp x) y (f (- x 1) (bvmult 32 y 2)))) ;; work ;; 12 58

; faults of texts
(defun f (x) [x]) ;; bad token at 13
(defun f (x) 1x) ;; bad token at 13
(defun f (x) -1+) ;; bad token at 13
(defun f (x) #x) ;; bad token at 13
(defun f (x) #b12) ;; bad token at 13
(defun f (x) #y1) ;; bad token at 13
(defun f (x) #X-) ;; bad token at 13
(defun f (x) 1.5) ;; bad token at 13
(defun f () 170141183460469231731687303715884105728) ;; bad token at 12
(defun f () -170141183460469231731687303715884105729) ;; bad token at 12
(defun f () #x80000000000000000000000000000000) ;; bad token at 12
(defun f () # ;; bad token at 12
(defun f () 1) #|# ;; unclosed at 15
(defun f () 1) #| #| | ;; unclosed at 15
(defun f () #| a #| b |# 1) |# ;; bad token at 28
(defun f () "a\" ;; unclosed at 12
) ] ;; bad token at 2
(defun f (x) x ;; unclosed at 0
(local a) (defun f (x) (bvxor 8 x ;; unclosed at 10
(quote '(1 ;; unclosed at 0
(defun f () 1)) ( ;; bad form at 14
x ;; bad form at 0
7 ;; bad form at 0
"text" ;; bad form at 0
'7 ;; bad form at 0
() ;; bad form at 0
(7) ;; bad form at 0
(defmacro f (x) x) ;; bad form at 0
(defun) ;; bad form at 0
(defun f) ;; bad form at 0
(defun f (x)) ;; bad form at 0
(defun 7 (x) x) ;; bad form at 0
(defun f x x) ;; bad form at 0
(defun f nil 1) ;; bad form at 0
(defun f (7) 1) ;; bad form at 0
(defun f (t) 1) ;; bad form at 0
(defun f (x NIL) 1) ;; bad form at 0
(defun f (x) 7 x) ;; bad form at 0
(defun f () "x") ;; bad form at 12
(defun f () "a" "b" 1) ;; bad form at 16
(defun f () (declare) "b" 1) ;; bad form at 22
(defun f () "a" "b" 7 1) ;; bad form at 0
(defconst f 1) ;; bad form at 0
(defconst ** 1) ;; bad form at 0
(defconst *a*) ;; bad form at 0
(defconst *a* 1 2) ;; bad form at 0
(defun f () ()) ;; bad form at 12
(defun f () (7 8)) ;; bad form at 12
(defun f () ((f) 8)) ;; bad form at 12
(defun f () ') ;; bad form at 12
(defun f () (not ')) ;; bad form at 17
(defun f () (not ''1)) ;; bad form at 17
(defun f () 'x) ;; bad form at 12
(defun f () '(1 (2))) ;; bad form at 12
(defun f () '(1 nil)) ;; bad form at 12
(defun f () (quote)) ;; bad form at 12
(defun f () (quote 1 2)) ;; bad form at 12
(defun f (x) (if x x)) ;; bad form at 13
(defun f (x) (if x x x x)) ;; bad form at 13
(defun f (x) (cond (x))) ;; bad form at 13
(defun f (x) (cond x)) ;; bad form at 13
(defun f (x) (and x (if x))) ;; bad form at 20
(defun f (x) (let)) ;; bad form at 13
(defun f (x) (let ((y x)))) ;; bad form at 13
(defun f (x) (let nil x)) ;; bad form at 13
(defun f (x) (let ((y)) x)) ;; bad form at 13
(defun f (x) (let (y) x)) ;; bad form at 13
(defun f (x) (let ((t 1)) x)) ;; bad form at 13
(defun f (x) (let* ((7 1)) x)) ;; bad form at 13
(defun f (x) (let ((y 1)) x x)) ;; bad form at 13
(defun f (x) (let ((y 1)) "a" x)) ;; bad form at 26
(defun f (x) (let ((y (if))) "a" x)) ;; bad form at 22
(defun f (x) (bvxor 8 x)) ;; bad form at 13
(defun f (x) (bvxor 8 x x x)) ;; bad form at 13
(defun f (x) (+ x)) ;; bad form at 13
(defun f (x) (-)) ;; bad form at 13
(defun f (x) (- x x x)) ;; bad form at 13
(defun f (x) (list)) ;; bad form at 13
(defun f (x) (append x)) ;; bad form at 13
(defun f (x) (list x "a")) ;; bad form at 21
(defun f (y) x) (defun g () (if)) ;; bad form at 28
(defun f (x) (bvxor 8 x y)) ;; unbound name at 24
(defun f (x) (g x)) ;; unbound name at 13
(defun f (x) (declare x)) ;; unbound name at 13
(defun f (x) (defun x)) ;; unbound name at 13
(defun f (x) (t)) ;; unbound name at 13
(defun f (x) (x)) ;; unbound name at 13
(defun f (x) (list x :x)) ;; unbound name at 21
(defconst *a* x) ;; unbound name at 14
(defconst *a* 1) (defun f () (*a*)) ;; unbound name at 29
(defun *a* () 1) (defun f () *a*) ;; unbound name at 29
(defun f (x) (list (let ((y x)) y) y)) ;; unbound name at 35
(defun f (x) (let ((y x) (z y)) z)) ;; unbound name at 28
(defun f (x) (let* ((z y) (y x)) z)) ;; unbound name at 23
(defun f (x x) x) ;; duplicate at 0
(defun f (x X) x) ;; duplicate at 0
(defun f (x) x) (defun F (y) y) ;; duplicate at 16
(defconst *a* 1) (defun *a* (x) x) ;; duplicate at 17
(defun bvxor (x) x) ;; duplicate at 0
(defun Declare (x) x) ;; duplicate at 0
(defund nil (x) x) ;; duplicate at 0
(defun let* (x) x) ;; duplicate at 0
(defun in-theory (x) x) ;; duplicate at 0
(defun f (x) (let ((y x) (y x)) y)) ;; duplicate at 13
(defun f (x) (f)) ;; bad form at 13
(defun f (x) (g x x)) (defun g (x) x) (defun g (x y) x) ;; bad form at 13
(defun t (x x) (g)) ;; duplicate at 0

; a name that no definition may have means nothing, also where a text defines it
(defun f (x) (declare)) (defun declare () 1) ;; unbound name at 13
(defun f (x) (declare x)) (defun declare () 1) ;; unbound name at 13
(defun f (x) (t)) (defun t () 1) ;; unbound name at 13
(defun f (x) (defun x)) (defun defun (x) x) ;; unbound name at 13
(defun f (x) (in-theory x)) (defun in-theory (x) x) ;; unbound name at 13
(defun declare () 1) (defun f () (declare)) ;; duplicate at 0
(defun bvdiv (w x y) x) ;; duplicate at 0
(defun f (x) x) (defun bvmod (w x y) x) ;; duplicate at 16

; numbers of all bases
(defun f () 007) ;; 7
(defun f () -0) ;; 0
(defun f () +12) ;; 12
(defun f () #xFf) ;; 255
(defun f () #B-101) ;; -5
(defun f () #o+17) ;; 15
(defun f () #X-a0) ;; -160
(defun f () 170141183460469231731687303715884105727) ;; 170141183460469231731687303715884105727
(defun f () -170141183460469231731687303715884105728) ;; -170141183460469231731687303715884105728
(defun f () #x-80000000000000000000000000000000) ;; -170141183460469231731687303715884105728

; a name means its last binding; three formals are 5, 7 and 9
(defun f (x *k* y) (let ((y x) (z y)) (let* ((z z) (x z)) (list x y z *k*)))) (defconst *k* 1) ;; (9 5 9 7)
