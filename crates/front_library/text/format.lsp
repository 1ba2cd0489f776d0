; Formatted output: a string with directives, each of which takes what it needs of the objects.

(defun format (stream string :rest objects)
  (%format stream string objects))

; The text before a wrong directive is printed.
(defun %format (stream string objects)
  (%check-output stream)
  (let ((index 0) (end (%string-length string)))
    (while (< index end)
      (let ((character (%char-at string index)))
        (setq index (+ index 1))
        (cond ((not (eql character #\~)) (%put-char stream character))
              ((= index end) (%program-error))
              (t (setq objects (%directive stream (%char-at string index) objects))
                 (setq index (+ index 1))))))))

; Does what a directive says, and gives the objects that it leaves.
(defun %directive (stream directive objects)
  (cond ((or (eql directive #\D) (eql directive #\d)) (%directive-integer stream objects 10))
        ((or (eql directive #\A) (eql directive #\a)) (%directive-object stream objects nil))
        ((eql directive #\%) (%put-char stream #\newline) objects)
        ((or (eql directive #\S) (eql directive #\s)) (%directive-object stream objects t))
        ((or (eql directive #\C) (eql directive #\c)) (%emit stream (%needed objects)) (cdr objects))
        ((or (eql directive #\B) (eql directive #\b)) (%directive-integer stream objects 2))
        ((or (eql directive #\O) (eql directive #\o)) (%directive-integer stream objects 8))
        ((or (eql directive #\X) (eql directive #\x)) (%directive-integer stream objects 16))
        ((eql directive #\&) (format-fresh-line stream) objects)
        ((eql directive #\~) (%put-char stream #\~) objects)
        (t (%program-error))))

(defun %directive-object (stream objects escape)
  (%print stream (%needed objects) escape)
  (cdr objects))

(defun %directive-integer (stream objects radix)
  (%emit-integer stream (assure <integer> (%needed objects)) radix)
  (cdr objects))

; The first of the objects, of which there has to be one.
(defun %needed (objects)
  (if (null objects) (%program-error) (car objects)))
