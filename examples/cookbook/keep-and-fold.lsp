; What of a list answers a question, what a function of two makes of a list, and whether some or all items answer
; a question.
(defun keep (question items)
  (mapcan (lambda (item) (if (funcall question item) (list item) nil)) items))

(defun fold (function value items)
  (mapc (lambda (item) (setq value (funcall function value item))) items)
  value)

(defun some (question items)
  (block found
    (mapc (lambda (item) (if (funcall question item) (return-from found t))) items)
    nil))

(defun every (question items) (not (some (lambda (item) (not (funcall question item))) items)))

(defun is-even (n) (= (mod n 2) 0))

(format (standard-output) "~S ~D ~S~%"
        (keep #'is-even '(1 2 3 4)) (fold #'+ 0 '(1 2 3 4)) (fold (lambda (a b) (cons b a)) nil '(a b c)))
(format (standard-output) "~S ~S~%" (some #'is-even '(1 3)) (every #'is-even '(2 4)))
