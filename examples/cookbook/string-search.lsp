; All places at which a text stands in another one, and that other one with each of them replaced.
(defun places (part text)
  (let ((found nil))
    (for ((at (string-index part text) (string-index part text (+ at 1))))
         ((null at) (reverse found))
      (setq found (cons at found)))))

(defun replace (part new text)
  (let ((done "") (from 0))
    (for ((at (string-index part text) (string-index part text from)))
         ((null at) (string-append done (subseq text from (length text))))
      (setq done (string-append done (subseq text from at) new))
      (setq from (+ at (length part))))))

(format (standard-output) "~S ~S~%" (places "an" "banana") (places "x" "banana"))
(format (standard-output) "~S ~S~%" (replace "an" "o" "banana") (replace "x" "y" "banana"))
