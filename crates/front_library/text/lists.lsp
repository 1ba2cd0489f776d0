; Lists: conses, and functions that go along lists. What is no list, or does not end in nil, signals where `car` or `cdr` meets it.

; Conses and their parts.
(defun cons (first rest) (cons first rest))
(defun car (list) (car list))
(defun cdr (list) (cdr list))
(defun set-car (value list) (set-car value list))
(defun set-cdr (value list) (set-cdr value list))

; Whether an object is a cons, and whether it is a list.
(defun consp (object) (consp object))
(defun listp (object) (or (consp object) (null object)))

; The list of the arguments.
(defun list (:rest items) items)
(defun %list (:rest items) items)

; A list of so many items, all the same.
(defun create-list (length :rest element)
  (let ((item (%optional element nil)) (left (%natural length)) (items nil))
    (while (> left 0)
      (setq items (cons item items))
      (setq left (- left 1)))
    items))

; The items of all lists in one list, which shares the last of them.
(defun append (:rest lists)
  (%append-all lists t))

; The same for quasiquotation, where what stands last may be any object.
(defun %append (:rest lists)
  (%append-all lists nil))

(defun %append-all (lists ends-in-list)
  (let ((front nil))
    (while (not (or (null lists) (null (cdr lists))))
      (setq front (%turn-copy-onto (car lists) front))
      (setq lists (cdr lists)))
    (cond ((null lists) nil)
          ((and ends-in-list (not (consp (car lists))) (not (null (car lists))))
           (%domain-error (car lists) (class <list>)))
          (t (%turn-onto front (car lists))))))

; The items of a list in the other order in front of another list: in new conses, or in its own ones.
(defun %turn-copy-onto (list end)
  (while (not (null list))
    (setq end (cons (car list) end))
    (setq list (cdr list)))
  end)

(defun %turn-onto (list end)
  (while (not (null list))
    (let ((rest (cdr list)))
      (set-cdr end list)
      (setq end list)
      (setq list rest)))
  end)

; The items of a list in the other order. The second takes the conses of the list.
(defun reverse (list) (%turn-copy-onto list nil))
(defun nreverse (list) (%turn-onto list nil))

; What of the list begins with the object, nil where it has none.
(defun member (object list) (%memv object list))

(defun %memv (object list)
  (while (not (or (null list) (eql object (car list))))
    (setq list (cdr list)))
  list)

; The same with a predicate of the object and an item, for `case-using`.
(defun %memp (predicate object list)
  (while (not (or (null list) (funcall predicate object (car list))))
    (setq list (cdr list)))
  list)

; The first cons of a list of conses that has this key as its first part, nil where there is none.
(defun assoc (key list)
  (while (not (or (null list) (eql key (car (car list)))))
    (setq list (cdr list)))
  (if (null list) nil (car list)))

; The length of a list, which is to end in nil.
(defun %list-length (list)
  (let ((rest list) (length 0))
    (while (consp rest)
      (setq rest (cdr rest))
      (setq length (+ length 1)))
    (if (null rest) length (%domain-error list (class <list>)))))

; What of a list begins with its item of this index.
(defun %list-from (list index)
  (assure <list> list)
  (assure <integer> index)
  (if (< index 0) (%program-error))
  (while (and (> index 0) (consp list))
    (setq list (cdr list))
    (setq index (- index 1)))
  (if (consp list) list (%program-error)))
