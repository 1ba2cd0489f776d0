(with-handler (lambda (c) (cdr 8)) (car 1))
