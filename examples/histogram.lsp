; A histogram of a text that is read: how often each letter stands in it, and how long its words are, as bars of at most 30 marks.

(defconstant widest 30)
(defconstant alphabet "abcdefghijklmnopqrstuvwxyz")

; How often each letter was read, and each length of a word.
(defglobal letters (create-vector (length alphabet) 0))
(defglobal lengths (create-vector 20 0))

(defun count-one (vector index)
  (setf (aref vector index) (+ (aref vector index) 1)))

; The place of a letter in the alphabet, of a capital one too; nil for any other character.
(defun letter-index (character)
  (if (and (char<= #\A character) (char<= character #\Z))
      (- (convert character <integer>) (convert #\A <integer>))
      (char-index character alphabet)))

; Counts the letters and the words of a line. A word is a run of letters, and ends at the end of the line at the latest.
(defun count-line (line)
  (let ((word 0))
    (for ((i 0 (+ i 1)))
         ((= i (length line)))
      (let ((index (letter-index (elt line i))))
        (cond (index
               (count-one letters index)
               (setq word (+ word 1)))
              (t (end-word word)
                 (setq word 0)))))
    (end-word word)))

(defun end-word (length-of-word)
  (if (> length-of-word 0)
      (count-one lengths (min length-of-word 19))))

; The greatest of the counts.
(defun greatest (counts)
  (apply #'max (convert counts <list>)))

; A line: a title, a count, and a bar whose length is to `widest` as the count is to the greatest one, rounded up.
(defun show (title count of)
  (let ((width (div (+ (* count widest) (- of 1)) of)))
    (format (standard-output) "~A ~A~D ~A~%" title (if (< count 10) " " "") count (create-string width #\#))))

; Each count that is not 0.
(defun show-all (counts title)
  (let ((of (greatest counts)))
    (for ((i 0 (+ i 1)))
         ((= i (length counts)))
      (if (> (aref counts i) 0)
          (show (funcall title i) (aref counts i) of)))))

(let ((lines 0) (line (read-line (standard-input) nil nil)))
  (while line
    (count-line line)
    (setq lines (+ lines 1))
    (setq line (read-line (standard-input) nil nil)))
  (format (standard-output) "~D lines, ~D letters, ~D words~%"
          lines (apply #'+ (convert letters <list>)) (apply #'+ (convert lengths <list>))))
(show-all letters (lambda (i) (elt alphabet i)))
(show-all lengths #'identity)
