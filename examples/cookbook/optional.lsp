; Arguments that may be left out stand in the list behind :rest; arguments by name are symbols with their values
; behind them.
(defun greet (name :rest words)
  (format (standard-output) "~A, ~A~%" (if words (car words) "hello") name))

(defun value-of (name arguments default)
  (cond ((null arguments) default)
        ((eq (car arguments) name) (elt arguments 1))
        (t (value-of name (cdr (cdr arguments)) default))))

(defun line (:rest arguments)
  (format (standard-output) "~A~%" (create-string (value-of 'width arguments 5) (value-of 'of arguments #\-))))

(greet "Ann")
(greet "Bob" "good morning")
(line)
(line 'of #\= 'width 3)
