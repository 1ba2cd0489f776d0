; A list in order by a question of two items: merge sort. Items that are alike stay in their order.
(defun merge (left right before)
  (let ((merged nil))
    (while (and left right)
      (cond ((funcall before (car right) (car left))
             (setq merged (cons (car right) merged))
             (setq right (cdr right)))
            (t (setq merged (cons (car left) merged))
               (setq left (cdr left)))))
    (append (reverse merged) left right)))

(defun sort (items before)
  (let* ((end (length items)) (half (div end 2)))
    (if (= half 0)
        items
        (merge (sort (subseq items 0 half) before) (sort (subseq items half end) before) before))))

(mapc (lambda (sorted) (format (standard-output) "~S~%" sorted))
      (list (sort '(3 1 2) #'<)
            (sort '("pear" "fig" "apple") #'string<)
            (sort '((a . 1) (b . 2) (c . 2)) (lambda (x y) (> (cdr x) (cdr y))))))
