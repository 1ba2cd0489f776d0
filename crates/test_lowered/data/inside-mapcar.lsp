(mapcar (lambda (x) (car x)) '((1) 2))
