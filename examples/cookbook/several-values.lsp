; A function that gives several values gives a list of them; apply hands its items to a function that names them.
(defun divide (a b) (list (div a b) (mod a b)))

(apply (lambda (quotient rest) (format (standard-output) "~D, and ~D is left~%" quotient rest))
       (divide 17 5))
