; Eight queens on a board, none of which another one can take: the first placing that is found when the files are filled from
; left to right, and in each file the ranks are tried from below. Marks in vectors say which ranks and diagonals are taken.

(defconstant size 8)

; The rank of the queen in each file, and what the queens so far hold.
(defglobal ranks (create-vector size 0))
(defglobal held-ranks (create-vector size nil))
(defglobal held-rising (create-vector (* 2 size) nil))
(defglobal held-falling (create-vector (* 2 size) nil))
(defglobal tried 0)

; A rising diagonal has one difference of rank and file, a falling one has one sum.
(defun rising (file rank) (+ (- rank file) size))
(defun falling (file rank) (+ rank file))

(defun is-free (file rank)
  (not (or (aref held-ranks rank)
           (aref held-rising (rising file rank))
           (aref held-falling (falling file rank)))))

(defun mark (file rank flag)
  (setf (aref held-ranks rank) flag)
  (setf (aref held-rising (rising file rank)) flag)
  (setf (aref held-falling (falling file rank)) flag))

; Places queens from a file on; the exit `found` is taken where all files are full.
(defun place (file)
  (if (= file size) (throw 'found t))
  (for ((rank 0 (+ rank 1)))
       ((= rank size) nil)
    (if (is-free file rank)
        (progn
          (setq tried (+ tried 1))
          (setf (aref ranks file) rank)
          (mark file rank t)
          (place (+ file 1))
          (mark file rank nil)))))

; Prints the board, the highest rank first.
(defun show ()
  (for ((rank (- size 1) (- rank 1)))
       ((< rank 0))
    (for ((file 0 (+ file 1)))
         ((= file size))
      (format-char (standard-output) (if (= (aref ranks file) rank) #\Q #\.)))
    (format (standard-output) "~%")))

(if (catch 'found (place 0))
    (progn
      (show)
      (format (standard-output) "ranks ~S, ~D queens tried~%"
              (mapcar (lambda (rank) (+ rank 1)) (convert ranks <list>))
              tried))
    (format (standard-output) "no way~%"))
