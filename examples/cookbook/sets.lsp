; Lists as sets, by eql: each item once, what is in both lists, in either of them, in the first alone.
(defun once (items)
  (let ((found nil))
    (mapc (lambda (item) (if (not (member item found)) (setq found (cons item found)))) items)
    (reverse found)))

(defun both (a b) (mapcan (lambda (item) (if (member item b) (list item) nil)) a))
(defun without (a b) (mapcan (lambda (item) (if (member item b) nil (list item))) a))
(defun either (a b) (append a (without b a)))

(format (standard-output) "~S ~S ~S ~S~%"
        (once '(a b a c b)) (both '(1 2 3) '(3 4)) (either '(1 2 3) '(3 4)) (without '(1 2 3) '(3 4)))
