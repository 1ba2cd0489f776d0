; Vectors and arrays: an array of this language is a vector or a string, and has one index.

; A vector of the arguments, and one of the items of a list.
(defun vector (:rest items) (%list-vector items))

(defun %list-vector (items)
  (let ((vector (%make-vector (%list-length items) nil)) (index 0))
    (while (not (null items))
      (%set-vector-ref (car items) vector index)
      (setq items (cdr items))
      (setq index (+ index 1)))
    vector))

; A vector of so many elements, all the same.
(defun create-vector (length :rest element)
  (%make-vector length (%optional element nil)))

; An array whose lengths are a list of one.
(defun create-array (lengths :rest element)
  (let ((item (%optional element nil)))
    (if (and (consp lengths) (null (cdr lengths)))
        (%make-vector (car lengths) item)
        (%program-error))))

; The element of an array with this index, and of an array that is no string.
(defun aref (array index)
  (cond ((stringp array) (%char-at array index))
        ((general-vector-p array) (%vector-ref array index))
        (t (%domain-error array (class <basic-array>)))))

(defun garef (array index) (%vector-ref array index))

; Sets that element, and gives the value.
(defun set-aref (value array index)
  (cond ((stringp array) (%set-char-at value array index))
        ((general-vector-p array) (%set-vector-ref value array index))
        (t (%domain-error array (class <basic-array>)))))

(defun set-garef (value array index) (%set-vector-ref value array index))

; Whether an object is a vector or an array.
(defun general-vector-p (object) (general-vector-p object))
(defun basic-vector-p (object) (or (stringp object) (general-vector-p object)))
(defun basic-array-p (object) (or (stringp object) (general-vector-p object)))

; The elements of a vector in a list.
(defun %list-of-vector (vector)
  (let ((items nil) (index (%vector-length vector)))
    (while (> index 0)
      (setq index (- index 1))
      (setq items (cons (%vector-ref vector index) items)))
    items))

; The elements from a start up to an end, in a new vector.
(defun %part-of-vector (vector start end)
  (let ((part (%make-vector (- end start) nil)) (index 0))
    (while (< start end)
      (%set-vector-ref (%vector-ref vector start) part index)
      (setq start (+ start 1))
      (setq index (+ index 1)))
    part))
