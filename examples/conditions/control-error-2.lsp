(funcall (block b (lambda () (return-from b 1))))
