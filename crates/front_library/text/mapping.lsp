; Mapping: a function is called with the items of lists, or with what is left of them, as long as the shortest list has any.

; Calls the function with the items, and gives the list of its values.
(defun mapcar (function list :rest lists)
  (assure <function> function)
  (let ((values nil))
    (if (null lists)
        (while (not (null list))
          (setq values (cons (funcall function (car list)) values))
          (setq list (cdr list)))
        (let ((rests (cons list lists)))
          (while (%all-left rests)
            (setq values (cons (%apply function (%heads rests)) values))
            (%advance rests))))
    (nreverse values)))

; Calls it with the items, and gives the first list.
(defun mapc (function list :rest lists)
  (assure <function> function)
  (if (null lists)
      (let ((rest list))
        (while (not (null rest))
          (funcall function (car rest))
          (setq rest (cdr rest))))
      (let ((rests (cons list lists)))
        (while (%all-left rests)
          (%apply function (%heads rests))
          (%advance rests))))
  list)

; Calls it with the items, and joins its values, which are to be lists, by their own conses.
(defun mapcan (function list :rest lists)
  (%join (%apply #'mapcar (cons function (cons list lists)))))

; Calls it with what is left of the lists, and gives the list of its values.
(defun maplist (function list :rest lists)
  (assure <function> function)
  (let ((values nil) (rests (cons list lists)))
    (while (%all-left rests)
      (setq values (cons (%apply function rests) values))
      (%advance rests))
    (nreverse values)))

; Calls it with what is left of the lists, and gives the first list.
(defun mapl (function list :rest lists)
  (assure <function> function)
  (let ((rests (cons list lists)))
    (while (%all-left rests)
      (%apply function rests)
      (%advance rests))
    list))

; Calls it with what is left of the lists, and joins its values.
(defun mapcon (function list :rest lists)
  (%join (%apply #'maplist (cons function (cons list lists)))))

; Whether none of the lists is nil. What is no list signals.
(defun %all-left (lists)
  (while (not (or (null lists) (null (car lists))))
    (car (car lists))
    (setq lists (cdr lists)))
  (null lists))

; The first items of the lists.
(defun %heads (lists)
  (let ((heads nil))
    (while (not (null lists))
      (setq heads (cons (car (car lists)) heads))
      (setq lists (cdr lists)))
    (nreverse heads)))

; Goes one item further in each list of a list of lists.
(defun %advance (lists)
  (while (not (null lists))
    (set-car (cdr (car lists)) lists)
    (setq lists (cdr lists))))

; The items of the lists in a list of lists, in one list: from the last list to the first, each in front of what is there.
(defun %join (lists)
  (let ((joined nil) (rest (nreverse lists)))
    (while (not (null rest))
      (setq joined (%join-two (car rest) joined))
      (setq rest (cdr rest)))
    joined))

(defun %join-two (list end)
  (if (null list)
      end
      (let ((last list))
        (while (not (null (cdr last)))
          (setq last (cdr last)))
        (set-cdr end last)
        list)))
