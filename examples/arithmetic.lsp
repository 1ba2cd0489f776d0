; A parser of arithmetic over a string, by recursive descent: each function takes what it is named for, from the place `at` on.
;   sum      a product, then any number of + or - with a product
;   product  a factor, then any number of *, / or % with a factor
;   factor   a number, a sum in parentheses, or - with a factor
; It makes a form of Lisp, and a second function evaluates it.

(defdynamic text "")
(defdynamic at 0)

; A text that is no sum: what was expected, and where.
(defun expected (what) (error "~A expected at ~D" what (dynamic at)))

; The next character that is no blank, nil at the end.
(defun next () (while (eql (here) #\space) (advance)) (here))

; The character at the place, nil at the end.
(defun here ()
  (if (< (dynamic at) (length (dynamic text))) (elt (dynamic text) (dynamic at)) nil))

(defun advance () (setf (dynamic at) (+ (dynamic at) 1)))

; The value of a digit, nil of what is none.
(defun digit-of (character) (if character (char-index character "0123456789") nil))

; Parts with operators between them, which group from the left.
(defun parse-row (parse-part operators)
  (let ((form (funcall parse-part)))
    (for ((entry (assoc (next) operators) (assoc (next) operators)))
         ((null entry) form)
      (advance)
      (setq form (list (cdr entry) form (funcall parse-part))))))

(defun parse-sum () (parse-row #'parse-product '((#\+ . +) (#\- . -))))
(defun parse-product () (parse-row #'parse-factor '((#\* . *) (#\/ . div) (#\% . mod))))

(defun parse-factor ()
  (let ((character (next)))
    (cond ((digit-of character) (parse-digits))
          ((eql character #\-) (advance) (list '- (parse-factor)))
          ((eql character #\()
           (advance)
           (let ((form (parse-sum)))
             (if (not (eql (next) #\))) (expected ")"))
             (advance)
             form))
          (t (expected "a number")))))

; A number ends where no digit follows at once.
(defun parse-digits ()
  (let ((number 0))
    (while (digit-of (here))
      (setq number (+ (* 10 number) (digit-of (here))))
      (advance))
    number))

(defun parse (string)
  (dynamic-let ((text string) (at 0))
    (let ((form (parse-sum)))
      (if (next) (expected "the end"))
      form)))

; The value of such a form.
(defun value (form)
  (if (integerp form)
      form
      (apply (case (car form) ((+) #'+) ((-) #'-) ((*) #'*) ((div) #'div) (t #'mod))
             (mapcar #'value (cdr form)))))

(defun tell (string)
  (format (standard-output) "~A : " string)
  (block told
    (with-handler (lambda (condition) (report-condition condition (standard-output)) (return-from told nil))
      (let ((form (parse string)))
        (format (standard-output) "~S = ~D" form (value form)))))
  (format (standard-output) "~%"))

(mapc #'tell
      '("1 + 2 * 3" "(1 + 2) * 3" "10 - 4 - 3" "-(2*3) % 4" "7 / 0" "2 * (3 + 4" "2 +" "1 2" "99999 * 99999"))
