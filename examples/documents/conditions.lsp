; The examples of docs/CONDITIONS.md: the script docs/examples-agree makes this file.
(defun told (work)
  (block told
    (with-handler
      (lambda (condition)
        (format (standard-output) "~A: " (class-of condition))
        (report-condition condition (standard-output))
        (return-from told nil))
      (funcall work))))
(told (lambda () (error "no ~D" 4)))
(format-fresh-line (standard-output))
(told (lambda () (div 1 0)))
(format-fresh-line (standard-output))
(defun or-zero (work)
  (block b
    (with-handler
      (lambda (condition)
        (if (instancep condition (class <division-by-zero>))
            (return-from b 0)
            (signal-condition condition (condition-continuable condition))))
      (funcall work))))
(format (standard-output) "~S~%" (or-zero (lambda () (div 1 0))))
(format (standard-output) "~S~%"
  (block signalled (with-handler (lambda (c) (return-from signalled (class-of c)))
    (or-zero (lambda () (car nil))))))
(defun sum (list) (for ((rest list (cdr rest)) (sum 0 (+ sum (car rest)))) ((null rest) sum)))
(format (standard-output) "~S~%" (sum (create-list 20000 1)))
