; Capital and small letters: their codes are 32 apart.
(defun shift (char from to by)
  (if (and (char<= from char) (char<= char to))
      (convert (+ (convert char <integer>) by) <character>)
      char))
(defun capital (char) (shift char #\a #\z -32))
(defun small (char) (shift char #\A #\Z 32))

; A new text, whose characters a function gives for those of another one.
(defun map-text (function text) (map-into (create-string (length text)) function text))

(format (standard-output) "~A ~A~%" (map-text #'capital "Hello, World 9") (map-text #'small "Hello, World 9"))
