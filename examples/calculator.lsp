; A calculator that reads its input: each line has numbers and words with blanks between them, and a word works on the numbers on
; top of the stack. What is wrong with a line is told, the stack is then what it was before the line, and the next one is read.

(defglobal stack nil)

(defclass <input-error> (<simple-error>) ())

(defun complain (string :rest objects)
  (signal-condition (create (class <input-error>) 'format-string string 'format-arguments objects) nil))

(defun push (number) (setq stack (cons number stack)))

(defun pop ()
  (if (null stack) (complain "the stack is empty"))
  (let ((top (car stack)))
    (setq stack (cdr stack))
    top))

; A word that puts what a function gives of the two numbers on top, and the function that such a word stands for.
(defun two (function)
  (lambda ()
    (let* ((second (pop)) (first (pop)))
      (push (funcall function first second)))))

(defconstant words
  (list (cons "+" (two #'+)) (cons "-" (two #'-)) (cons "*" (two #'*))
        (cons "/" (two #'div)) (cons "mod" (two #'mod)) (cons "max" (two #'max))
        (cons "dup" (lambda () (let ((top (pop))) (push top) (push top))))
        (cons "drop" #'pop)
        (cons "sqrt" (lambda () (push (isqrt (pop)))))
        (cons "hex" (lambda () (format (standard-output) "~X~%" (car stack))))))

; The number that a word spells, with a sign in front or not; nil where it spells none.
(defun number-of (word)
  (let* ((sign (if (char= (elt word 0) #\-) -1 1))
         (start (if (= sign -1) 1 0))
         (number 0))
    (if (= start (length word))
        nil
        (for ((i start (+ i 1)))
             ((or (null number) (= i (length word))) number)
          (let ((digit (char-index (elt word i) "0123456789")))
            (setq number (if digit (+ (* 10 number) (* sign digit)) nil)))))))

(defun do-word (word)
  (let ((number (number-of word)))
    (if number
        (push number)
        (for ((entries words (cdr entries)))
             ((or (null entries) (string= word (car (car entries))))
              (if (null entries) (complain "~A is no word" word))
              (funcall (cdr (car entries))))))))

; The words of a line.
(defun words-of (line)
  (let ((found nil) (start 0))
    (for ((i 0 (+ i 1)))
         ((> i (length line)) (nreverse found))
      (if (or (= i (length line)) (char= (elt line i) #\space))
          (progn
            (if (< start i) (setq found (cons (subseq line start i) found)))
            (setq start (+ i 1)))))))

; Does the words of a line, from left to right.
(defun do-line (line)
  (let ((before stack))
    (block done
      (with-handler
        (lambda (condition)
          (setq stack before)
          (format (standard-output) "wrong: ")
          (report-condition condition (standard-output))
          (format (standard-output) "~%")
          (return-from done nil))
        (mapc #'do-word (words-of line))
        (format (standard-output) "~A~%" (reverse stack))))))

(for ((line (read-line (standard-input) nil nil) (read-line (standard-input) nil nil)))
     ((null line) (format (standard-output) "~D left~%" (length stack)))
  (do-line line))
