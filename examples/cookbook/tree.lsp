; A tree of words in their order, with a count each: nil, or a node with what is before it and what is behind it.
(defclass <node> ()
  ((word :initarg word :reader word-of)
   (count :initform 1 :accessor count-of)
   (before :initform nil :accessor before)
   (behind :initform nil :accessor behind)))

(defun with-word (tree word)
  (cond ((null tree) (create (class <node>) 'word word))
        ((string= word (word-of tree)) (setf (count-of tree) (+ 1 (count-of tree))) tree)
        ((string< word (word-of tree)) (setf (before tree) (with-word (before tree) word)) tree)
        (t (setf (behind tree) (with-word (behind tree) word)) tree)))

(defun walk (tree function)
  (if tree
      (progn
        (walk (before tree) function)
        (funcall function tree)
        (walk (behind tree) function))))

(defglobal tree nil)
(mapc (lambda (word) (setq tree (with-word tree word))) '("be" "or" "not" "be" "to"))
(walk tree (lambda (node) (format (standard-output) "~A ~D~%" (word-of node) (count-of node))))
