; Sequences: lists, vectors and strings.

; How many items a sequence has.
(defun length (sequence)
  (cond ((stringp sequence) (%string-length sequence))
        ((general-vector-p sequence) (%vector-length sequence))
        (t (%list-length sequence))))

; The item with this index.
(defun elt (sequence index)
  (cond ((stringp sequence) (%char-at sequence index))
        ((general-vector-p sequence) (%vector-ref sequence index))
        (t (car (%list-from sequence index)))))

; Sets that item, and gives the value.
(defun set-elt (value sequence index)
  (cond ((stringp sequence) (%set-char-at value sequence index))
        ((general-vector-p sequence) (%set-vector-ref value sequence index))
        (t (set-car value (%list-from sequence index)))))

; The items from a start up to an end, in a new sequence of the same kind.
(defun subseq (sequence start end)
  (%sequence sequence)
  (assure <integer> start)
  (assure <integer> end)
  (if (or (< start 0) (< end start)) (%program-error))
  (cond ((listp sequence) (%part-of-list sequence start end))
        ((< (length sequence) end) (%program-error))
        ((stringp sequence) (%part-of-string sequence start end))
        (t (%part-of-vector sequence start end))))

(defun %part-of-list (list start end)
  (let ((index 0) (items nil))
    (while (< index end)
      (if (not (consp list)) (%program-error))
      (if (<= start index) (setq items (cons (car list) items)))
      (setq list (cdr list))
      (setq index (+ index 1)))
    (nreverse items)))

; Sets the items of a sequence to the values of a function of the items of others, as long as all have any; gives the sequence.
(defun map-into (sequence function :rest sequences)
  (%sequence sequence)
  (assure <function> function)
  (let ((lists (mapcar #'%items sequences)))
    (if (listp sequence)
        (%map-into-list sequence function lists)
        (%map-into-vector sequence function lists))
    sequence))

(defun %map-into-list (list function lists)
  (while (and (not (null list)) (%all-left lists))
    (set-car (%apply function (%heads lists)) list)
    (setq list (cdr list))
    (%advance lists)))

(defun %map-into-vector (vector function lists)
  (let ((index 0) (end (length vector)))
    (while (and (< index end) (%all-left lists))
      (set-elt (%apply function (%heads lists)) vector index)
      (setq index (+ index 1))
      (%advance lists))))

; An object that is to be a sequence.
(defun %sequence (object)
  (if (or (listp object) (stringp object) (general-vector-p object))
      object
      (%domain-error object (class <list>))))

; The items of a sequence in a list.
(defun %items (sequence)
  (cond ((stringp sequence) (%list-of-string sequence))
        ((general-vector-p sequence) (%list-of-vector sequence))
        (t (assure <list> sequence))))
