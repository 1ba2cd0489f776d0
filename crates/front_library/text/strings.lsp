; Strings: they compare by the codes of their characters.

(defun stringp (object) (stringp object))

; A string of so many characters, all the same, blanks where no character is named.
(defun create-string (length :rest character)
  (%make-string length (%optional character #\space)))

; The characters of all strings in one new string.
(defun string-append (:rest strings)
  (let ((whole (%make-string (%length-of-all strings) #\space)) (index 0))
    (while (not (null strings))
      (setq index (%copy-into whole index (car strings)))
      (setq strings (cdr strings)))
    whole))

(defun %length-of-all (strings)
  (let ((length 0))
    (while (not (null strings))
      (setq length (+ length (%string-length (car strings))))
      (setq strings (cdr strings)))
    length))

; Puts the characters of a string into another one from an index on; gives the index behind them.
(defun %copy-into (whole index string)
  (let ((from 0) (end (%string-length string)))
    (while (< from end)
      (%set-char-at (%char-at string from) whole index)
      (setq from (+ from 1))
      (setq index (+ index 1)))
    index))

; Whether two strings have the same characters.
(defun string= (first second)
  (let ((index 0) (end (%string-length first)))
    (and (= end (%string-length second))
         (progn
           (while (and (< index end) (eql (%char-at first index) (%char-at second index)))
             (setq index (+ index 1)))
           (= index end)))))

; -1, 0 or 1: the first string is less than the second, equal to it or greater.
(defun %order (first second)
  (let* ((first-end (%string-length first)) (second-end (%string-length second)) (index 0))
    (while (and (< index first-end) (< index second-end)
                (eql (%char-at first index) (%char-at second index)))
      (setq index (+ index 1)))
    (cond ((= index first-end) (if (= index second-end) 0 -1))
          ((= index second-end) 1)
          ((char< (%char-at first index) (%char-at second index)) -1)
          (t 1))))

(defun string/= (first second) (/= (%order first second) 0))
(defun string< (first second) (< (%order first second) 0))
(defun string> (first second) (> (%order first second) 0))
(defun string<= (first second) (<= (%order first second) 0))
(defun string>= (first second) (>= (%order first second) 0))

; The first index of a character in a string, from a start on, 0 where none is named; nil where it does not stand there.
(defun char-index (character string :rest start)
  (let ((index (%optional start 0)))
    (assure <character> character)
    (%check-start string index)
    (let ((end (%string-length string)))
      (while (and (< index end) (not (eql character (%char-at string index))))
        (setq index (+ index 1)))
      (if (< index end) index nil))))

; The first index at which a string stands in another one, from a start on; nil where it does not stand there.
(defun string-index (part string :rest start)
  (let ((index (%optional start 0)))
    (assure <string> part)
    (%check-start string index)
    (let ((last (- (%string-length string) (%string-length part))))
      (while (and (<= index last) (not (%stands-at part string index)))
        (setq index (+ index 1)))
      (if (<= index last) index nil))))

; A start is an index of the string, or its length.
(defun %check-start (string start)
  (let ((end (%string-length string)))
    (assure <integer> start)
    (if (or (< start 0) (> start end)) (%program-error))))

; Whether a string has another one's characters from an index on.
(defun %stands-at (part string index)
  (let ((from 0) (end (%string-length part)))
    (while (and (< from end) (eql (%char-at part from) (%char-at string (+ index from))))
      (setq from (+ from 1)))
    (= from end)))

; The characters of a string in a list.
(defun %list-of-string (string)
  (let ((items nil) (index (%string-length string)))
    (while (> index 0)
      (setq index (- index 1))
      (setq items (cons (%char-at string index) items)))
    items))

; A string of so many characters, which a list has in the other order.
(defun %string-of-turned (length characters)
  (let ((string (%make-string length #\space)))
    (while (> length 0)
      (setq length (- length 1))
      (%set-char-at (car characters) string length)
      (setq characters (cdr characters)))
    string))

; The characters from a start up to an end, in a new string.
(defun %part-of-string (string start end)
  (let ((part (%make-string (- end start) #\space)) (index 0))
    (while (< start end)
      (%set-char-at (%char-at string start) part index)
      (setq start (+ start 1))
      (setq index (+ index 1)))
    part))
