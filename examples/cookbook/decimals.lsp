; Money without floating-point numbers: sums are kept in cents, and a quotient is told with so many digits behind
; the point.
(defun two-digits (n) (string-append (if (< n 10) "0" "") (convert n <string>)))
(defun money (cents) (string-append (convert (div cents 100) <string>) "." (two-digits (mod cents 100))))

(defun quotient-text (a b places)
  (let ((text (string-append (convert (div a b) <string>) ".")) (rest (mod a b)))
    (for ((i 0 (+ i 1)))
         ((= i places) text)
      (setq text (string-append text (convert (div (* 10 rest) b) <string>)))
      (setq rest (mod (* 10 rest) b)))))

(format (standard-output) "~A and ~A are ~A~%" (money 1995) (money 510) (money (+ 1995 510)))
(format (standard-output) "22 by 7 is ~A~%" (quotient-text 22 7 6))
