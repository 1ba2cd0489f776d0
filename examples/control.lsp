; Choices and loops.
(defun put (c) (format-char (standard-output) c))
(defun digit (n) (put (%code-char (+ n 48))))
(put (if (= (mod 7 3) 1) #\o #\e))                                      ; o
(put (cond ((= 1 2) #\a) ((and 1 (or nil 2)) #\b) (t #\c)))             ; b
(let ((n 0)) (while (< n 3) (setq n (+ n 1))) (digit n))                ; 3
(digit (for ((i 0 (+ i 1)) (sum 0 (+ sum i))) ((= i 4) sum)))           ; 6: all steps are taken in parallel
