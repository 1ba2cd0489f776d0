(format t "hello")
