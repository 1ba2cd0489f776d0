(with-handler (lambda (c) 5) (car nil))
