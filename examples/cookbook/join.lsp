; The texts of a list in one text, with another one between them.
(defun join (texts between)
  (if (null texts)
      ""
      (apply #'string-append (car texts)
             (mapcan (lambda (text) (list between text)) (cdr texts)))))

(mapc (lambda (text) (format (standard-output) "~S~%" text))
      (list (join '("red" "green" "blue") ", ")
            (join '("alone") ", ")
            (join nil ", ")
            (join (mapcar (lambda (n) (convert n <string>)) '(1 2 3)) "+")))
