; Input: the one stream that is read is standard input. Bytes are taken by %next and %peek alone.

(defun standard-input () (standard-input))

; The next byte of a stream as an integer, -1 at the end: taken, and left.
(defun %next (stream)
  (%check-input stream)
  (%get-byte))

(defun %peek (stream)
  (%check-input stream)
  (%peek-byte))

(defun %check-input (stream)
  (if (not (eq stream (standard-input))) (%domain-error stream (class <stream>))))

; What follows takes a stream, a flag and a value, each of which may be left out. At the end of the input it signals
; <end-of-stream>, or gives the value where the flag is nil.

; The next character, which is taken.
(defun read-char (:rest arguments)
  (%at-most 3 arguments)
  (let ((byte (%next (%argument arguments 0 (standard-input)))))
    (if (< byte 0) (%end-of-input arguments) (%code-char byte))))

; The next character, which is left.
(defun preview-char (:rest arguments)
  (%at-most 3 arguments)
  (let ((byte (%peek (%argument arguments 0 (standard-input)))))
    (if (< byte 0) (%end-of-input arguments) (%code-char byte))))

; The next line, without its end; the last line may have none.
(defun read-line (:rest arguments)
  (%at-most 3 arguments)
  (let* ((stream (%argument arguments 0 (standard-input))) (byte (%next stream)))
    (if (< byte 0)
        (%end-of-input arguments)
        (let ((length 0) (characters nil))
          (while (not (or (< byte 0) (= byte 10)))
            (setq characters (cons (%code-char byte) characters))
            (setq length (+ length 1))
            (setq byte (%next stream)))
          (%string-of-turned length characters)))))

(defun %end-of-input (arguments)
  (if (%argument arguments 1 t)
      (signal-condition (%allocate (class <end-of-stream>)) nil)
      (%argument arguments 2 nil)))
