; A text in a field of so many characters: with blanks behind it, or in front of it. A longer text stays whole.
(defun blanks (count) (create-string (max count 0) #\space))
(defun pad (text width) (string-append text (blanks (- width (length text)))))
(defun right-align (text width) (string-append (blanks (- width (length text))) text))

; A number is made a text first.
(defun row (name price)
  (format (standard-output) "~A|~A|~%" (pad name 8) (right-align (convert price <string>) 5)))

(row "apple" 7)
(row "cherry" 1250)
(row "pineapple" -30)
