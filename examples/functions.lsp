; Functions: as values, with a rest, local, and recursive.
(defun digit (n) (format-char (standard-output) (%code-char (+ n 48))))
(digit (funcall (lambda (x) (+ x 1)) 4))              ; 5
(defun sum-of (a b c) (+ a (+ b c)))
(digit (funcall #'sum-of 1 2 3))                        ; 6
(defun second-of (first :rest others) (car others))
(digit (second-of 2 3 4))                             ; 3
(digit (flet ((square (n) (* n n))) (square 3)))      ; 9
(labels ((is-even (n) (if (= n 0) t (is-odd (- n 1))))
         (is-odd (n) (if (= n 0) nil (is-even (- n 1)))))
  (format-char (standard-output) (if (is-even 9) #\a #\b)))
