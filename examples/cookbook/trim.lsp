; A text without the blanks around it, and settings that are read: lines of a name, = and a value, and comments
; behind a #.
(defun trim (text)
  (let ((from 0) (to (length text)))
    (while (and (< from to) (char= (elt text from) #\space)) (setq from (+ from 1)))
    (while (and (< from to) (char= (elt text (- to 1)) #\space)) (setq to (- to 1)))
    (subseq text from to)))

(defun without-comment (line) (subseq line 0 (or (char-index #\# line) (length line))))

(for ((line (read-line (standard-input) nil nil) (read-line (standard-input) nil nil)))
     ((null line))
  (let* ((text (without-comment line)) (at (char-index #\= text)))
    (if at
        (format (standard-output) "~S is ~S~%" (trim (subseq text 0 at)) (trim (subseq text (+ at 1) (length text)))))))
