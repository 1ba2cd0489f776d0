; Exits by name, by a tag, and back to a place.
(defun digit (n) (format-char (standard-output) (%code-char (+ n 48))))
(defun look-for (tag) (throw tag 4))
(digit (block found (while t (return-from found 2))))
(digit (catch 'here (look-for 'here) 5))
(let ((n 0))
  (tagbody
   again
     (setq n (+ n 1))
     (if (< n 9) (go again)))
  (format-char (standard-output) (if (= n 9) #\n #\x)))
