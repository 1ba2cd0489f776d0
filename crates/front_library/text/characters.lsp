; Characters: they are bytes, and compare by their codes.

(defun characterp (object) (characterp object))

(defun char= (first second) (= (%char-code first) (%char-code second)))
(defun char/= (first second) (/= (%char-code first) (%char-code second)))
(defun char< (first second) (< (%char-code first) (%char-code second)))
(defun char> (first second) (> (%char-code first) (%char-code second)))
(defun char<= (first second) (<= (%char-code first) (%char-code second)))
(defun char>= (first second) (>= (%char-code first) (%char-code second)))
