; Objects: what any object can be asked for, and instances of classes.

; Whether two objects are the same: integers and characters by value, all others by identity.
(defun eq (first second) (eq first second))
(defun eql (first second) (eql first second))

; Whether two objects are alike: the same, or conses, strings or vectors whose parts are alike.
(defun equal (first second)
  (while (and (consp first) (consp second) (equal (car first) (car second)))
    (setq first (cdr first))
    (setq second (cdr second)))
  (cond ((and (consp first) (consp second)) nil)
        ((and (stringp first) (stringp second)) (string= first second))
        ((and (general-vector-p first) (general-vector-p second)) (%equal-vectors first second))
        (t (eql first second))))

(defun %equal-vectors (first second)
  (let ((index 0) (end (%vector-length first)))
    (and (= end (%vector-length second))
         (progn
           (while (and (< index end) (equal (%vector-ref first index) (%vector-ref second index)))
             (setq index (+ index 1)))
           (= index end)))))

; Whether an object is nil.
(defun not (object) (not object))
(defun null (object) (null object))

; The object itself.
(defun identity (object) object)

; Whether an object is of a kind.
(defun symbolp (object) (symbolp object))
(defun functionp (object) (functionp object))
(defun generic-function-p (object) (generic-function-p object))

; The class of an object, whether an object is an instance of a class, and whether a class is below another or is it.
(defun class-of (object) (class-of object))
(defun instancep (object class) (instancep object class))
(defun subclassp (class above) (subclassp class above))

; A new symbol, which is no other symbol.
(defun gensym () (gensym))

; A new instance of a class: its slots are filled by `initialize-object`.
(defun create (class :rest initargs)
  (let ((instance (%allocate class)))
    (initialize-object instance initargs)
    instance))

; Fills the slots of an instance: initargs is a list of names, each followed by its value.
(defgeneric initialize-object (instance initargs))

(defmethod initialize-object ((instance <object>) initargs)
  (let ((place 0) (count (%slot-count instance)))
    (%check-pairs initargs)
    (while (< place count)
      (%fill-slot instance place initargs)
      (setq place (+ place 1)))
    instance))

; A list of initargs has a value behind each name.
(defun %check-pairs (initargs)
  (while (not (null initargs))
    (if (null (cdr initargs)) (%program-error))
    (setq initargs (cdr (cdr initargs)))))

; Fills a slot: with the value behind the first initarg that names it, else with the value of its initform, where it has one.
(defun %fill-slot (instance place initargs)
  (let ((names (%slot-initargs instance place)) (initform (%slot-initform instance place)))
    (while (not (or (null initargs) (%memv (car initargs) names)))
      (setq initargs (cdr (cdr initargs))))
    (cond ((not (null initargs)) (%slot-set (car (cdr initargs)) instance place))
          ((not (null initform)) (%slot-set (funcall initform) instance place)))))

; The value of the slot with this name.
(defun %slot-of (instance name)
  (%slot-ref instance (%slot-place instance name)))

; An object as one of another class.
(defun %convert (object class)
  (cond ((instancep object class) object)
        ((eq class (class <integer>))
         (cond ((characterp object) (%char-code object))
               ((stringp object) (parse-number object))
               (t (%domain-error object class))))
        ((eq class (class <character>))
         (if (integerp object) (%code-char object) (%domain-error object class)))
        ((eq class (class <string>))
         (cond ((integerp object) (%digits object))
               ((symbolp object) (%symbol-name object))
               (t (%domain-error object class))))
        ((eq class (class <list>))
         (cond ((stringp object) (%list-of-string object))
               ((general-vector-p object) (%list-of-vector object))
               (t (%domain-error object class))))
        ((eq class (class <general-vector>))
         (cond ((stringp object) (%list-vector (%list-of-string object)))
               ((listp object) (%list-vector object))
               (t (%domain-error object class))))
        (t (%domain-error object class))))
