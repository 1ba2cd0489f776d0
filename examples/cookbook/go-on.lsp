; Goes on after an error: what went wrong is told, and the next item is taken.
(defun attempt (work)
  (block failed
    (with-handler
      (lambda (condition)
        (format (standard-output) "failed: ")
        (report-condition condition (standard-output))
        (format (standard-output) "~%")
        (return-from failed nil))
      (funcall work))))

(mapc (lambda (divisor)
        (attempt (lambda () (format (standard-output) "100 by ~S is ~D~%" divisor (div 100 divisor)))))
      '(7 0 x 5))
(attempt (lambda () (error "no more than ~D" 4)))
