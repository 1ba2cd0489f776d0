(unwind-protect (car 5) (cdr 7))
