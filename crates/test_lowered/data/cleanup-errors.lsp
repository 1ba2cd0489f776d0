(unwind-protect (error "a") (unwind-protect (error "b") (format (standard-output) "c")))
