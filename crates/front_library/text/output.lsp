; Output: the one stream that is printed to is standard output. Bytes are put by %put-char alone. What prints gives nil.

(defun standard-output () (standard-output))

; What was put is at its stream: nothing is held back.
(defun finish-output (stream)
  (%check-output stream)
  nil)

; Puts a character.
(defun format-char (stream character) (%emit stream character))

(defun %emit (stream character) (%put-char stream character))

; Whether a line begins where the next character is put.
(defun %at-start (stream)
  (%check-output stream)
  (%fresh))

(defun %check-output (stream)
  (if (not (eq stream (standard-output))) (%domain-error stream (class <stream>))))

; Ends the line, where one has begun.
(defun format-fresh-line (stream)
  (if (not (%at-start stream)) (%emit stream #\newline)))

; Prints an integer in a radix from 2 to 36.
(defun format-integer (stream integer radix)
  (%check-output stream)
  (assure <integer> integer)
  (assure <integer> radix)
  (if (or (< radix 2) (> radix 36)) (%domain-error radix (class <integer>)))
  (%emit-integer stream integer radix))

; An integer below 0 is printed by its last digit and what is in front of it, since the number without its sign may not fit.
(defun %emit-integer (stream integer radix)
  (if (>= integer 0)
      (%emit-natural stream integer radix)
      (let* ((last (mod (- 0 (mod integer radix)) radix))
             (front (- 0 (div (+ integer last) radix))))
        (%emit stream #\-)
        (if (> front 0) (%emit-natural stream front radix))
        (%emit-digit stream last))))

(defun %emit-natural (stream number radix)
  (if (>= number radix) (%emit-natural stream (div number radix) radix))
  (%emit-digit stream (mod number radix)))

(defun %emit-digit (stream digit)
  (%emit stream (%digit digit)))

(defun %digit (digit)
  (%char-at "0123456789ABCDEFGHIJKLMNOPQRSTUVWXYZ" digit))

; The decimal digits of an integer in a string.
(defun %digits (integer)
  (let ((rest integer) (length 0) (digits nil))
    (while (or (/= rest 0) (= length 0))
      (let ((last (if (< integer 0) (mod (- 0 (mod rest 10)) 10) (mod rest 10))))
        (setq digits (cons (%digit last) digits))
        (setq rest (div (if (< integer 0) (+ rest last) rest) 10)))
      (setq length (+ length 1)))
    (if (< integer 0)
        (%string-of-turned (+ length 1) (nreverse (cons #\- digits)))
        (%string-of-turned length (nreverse digits)))))

; Prints an object: as it can be read again where the flag is not nil, else as it is to be seen.
(defun format-object (stream object escape)
  (%check-output stream)
  (%print stream object escape))

; What is still to come of the lists and vectors around is in a list, the innermost first, so what is deep takes no deep calls: of a list
; the pair of nil and the rest of it, of a vector the pair of the vector and its next index.
(defun %print (stream object escape)
  (let ((around (%print-front stream object escape nil)))
    (while (not (null around))
      (setq around (%print-more stream escape around))))
  nil)

; Prints an object up to its first part that has no parts itself, with what is still to come of it in front of what is around.
(defun %print-front (stream object escape around)
  (while (or (consp object) (and (general-vector-p object) (> (%vector-length object) 0)))
    (if (consp object)
        (progn
          (%put-char stream #\()
          (setq around (cons (cons nil (cdr object)) around))
          (setq object (car object)))
        (progn
          (%emit-all stream "#(")
          (setq around (cons (cons object 1) around))
          (setq object (%vector-ref object 0)))))
  (%print-single stream object escape)
  around)

; Prints the next part of the innermost list or vector, or its end, and gives what is to come then.
(defun %print-more (stream escape around)
  (let ((vector (car (car around))) (rest (cdr (car around))))
    (cond ((null vector) (%print-more-of-list stream escape rest around))
          ((< rest (%vector-length vector))
           (%put-char stream #\space)
           (set-cdr (+ rest 1) (car around))
           (%print-front stream (%vector-ref vector rest) escape around))
          (t (%put-char stream #\))
             (cdr around)))))

(defun %print-more-of-list (stream escape rest around)
  (cond ((consp rest)
         (%put-char stream #\space)
         (set-cdr (cdr rest) (car around))
         (%print-front stream (car rest) escape around))
        ((null rest)
         (%put-char stream #\))
         (cdr around))
        (t (%emit-all stream " . ")
           (set-cdr nil (car around))
           (%print-front stream rest escape around))))

; What has no parts.
(defun %print-single (stream object escape)
  (cond ((integerp object) (%emit-integer stream object 10))
        ((symbolp object) (%print-symbol stream object escape))
        ((stringp object) (%print-string stream object escape))
        ((characterp object) (%print-character stream object escape))
        ((general-vector-p object) (%emit-all stream "#()"))
        (t (%print-opaque stream object))))

(defun %print-character (stream character escape)
  (cond ((null escape) (%emit stream character))
        ((eql character #\space) (%emit-all stream "#\\space"))
        ((eql character #\newline) (%emit-all stream "#\\newline"))
        (t (%emit-all stream "#\\")
           (%emit stream character))))

(defun %print-string (stream string escape)
  (if (null escape)
      (%emit-all stream string)
      (%emit-between stream #\" string)))

(defun %print-symbol (stream symbol escape)
  (let ((serial (%symbol-serial symbol)))
    (if (null serial)
        (%print-name stream (%symbol-name symbol) escape)
        (progn
          (%emit-all stream "#:g")
          (%emit-integer stream serial 10)))))

(defun %print-name (stream name escape)
  (if (or (null escape) (%is-plain name))
      (%emit-all stream name)
      (%emit-between stream #\| name)))

; What no text stands for.
(defun %print-opaque (stream object)
  (cond ((generic-function-p object) (%emit-all stream "#<generic-function>"))
        ((functionp object) (%emit-all stream "#<function>"))
        ((instancep object (class <stream>)) (%emit-all stream "#<stream>"))
        ((or (instancep object (class <built-in-class>)) (instancep object (class <standard-class>)))
         (%print-named stream "#<class " object))
        (t (%print-named stream "#<instance " (class-of object)))))

(defun %print-named (stream front class)
  (%emit-all stream front)
  (%emit-all stream (%symbol-name (%class-name class)))
  (%emit stream #\>))

; Puts the characters of a string.
(defun %emit-all (stream string)
  (let ((index 0) (end (%string-length string)))
    (while (< index end)
      (%put-char stream (%char-at string index))
      (setq index (+ index 1)))))

; Puts them between two marks, with a backslash before each such mark and each backslash.
(defun %emit-between (stream mark string)
  (%put-char stream mark)
  (let ((index 0) (end (%string-length string)))
    (while (< index end)
      (let ((character (%char-at string index)))
        (if (or (eql character mark) (eql character #\\)) (%put-char stream #\\))
        (%put-char stream character))
      (setq index (+ index 1))))
  (%put-char stream mark))

; Whether the name of a symbol is read as that symbol without bars: not empty, no dot alone, no beginning of a number, and of
; characters of names alone, none of which is a capital letter.
(defun %is-plain (name)
  (let ((index 0) (end (%string-length name)))
    (while (and (< index end) (%is-name-character (%char-at name index)))
      (setq index (+ index 1)))
    (and (> end 0) (= index end) (not (string= name ".")) (not (%begins-number name)))))

(defun %is-name-character (character)
  (or (and (char<= #\a character) (char<= character #\z))
      (%is-digit character)
      (not (null (char-index character "!$%&*+-./:<=>?^_~@[]{}")))))

(defun %is-digit (character)
  (and (char<= #\0 character) (char<= character #\9)))

(defun %begins-number (name)
  (or (%is-digit (%char-at name 0))
      (and (> (%string-length name) 1)
           (or (eql (%char-at name 0) #\+) (eql (%char-at name 0) #\-))
           (%is-digit (%char-at name 1)))))
