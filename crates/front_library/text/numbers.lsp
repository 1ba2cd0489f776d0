; Numbers: all of them are integers of 30 bits, and a result that does not fit signals <integer-overflow>.

; The sum of all numbers, 0 of none.
(defun + (:rest numbers)
  (%check-integers numbers)
  (let ((sum 0))
    (while (not (null numbers))
      (setq sum (+ sum (car numbers)))
      (setq numbers (cdr numbers)))
    sum))

; The product of all numbers, 1 of none.
(defun * (:rest numbers)
  (%check-integers numbers)
  (let ((product 1))
    (while (not (null numbers))
      (setq product (* product (car numbers)))
      (setq numbers (cdr numbers)))
    product))

; The first number less all others; of one number, that number below 0.
(defun - (number :rest numbers)
  (if (null numbers)
      (- 0 number)
      (progn
        (assure <integer> number)
        (%check-integers numbers)
        (while (not (null numbers))
          (setq number (- number (car numbers)))
          (setq numbers (cdr numbers)))
        number)))

; All objects of a list are to be integers.
(defun %check-integers (objects)
  (while (not (null objects))
    (assure <integer> (car objects))
    (setq objects (cdr objects))))

; The quotient towards minus infinity, and what it leaves, which has the sign of the divisor.
(defun div (number divisor) (div number divisor))
(defun mod (number divisor) (mod number divisor))

; Comparisons.
(defun = (first second) (= first second))
(defun /= (first second) (/= first second))
(defun < (first second) (< first second))
(defun <= (first second) (<= first second))
(defun > (first second) (> first second))
(defun >= (first second) (>= first second))

; Whether an object is a number. No object is a floating-point number.
(defun integerp (object) (integerp object))
(defun numberp (object) (integerp object))
(defun floatp (object) nil)

; The number without its sign.
(defun abs (number)
  (if (< number 0) (- 0 number) number))

; The least and the greatest of the numbers.
(defun min (number :rest numbers)
  (assure <integer> number)
  (while (not (null numbers))
    (if (> number (car numbers)) (setq number (car numbers)))
    (setq numbers (cdr numbers)))
  number)

(defun max (number :rest numbers)
  (assure <integer> number)
  (while (not (null numbers))
    (if (< number (car numbers)) (setq number (car numbers)))
    (setq numbers (cdr numbers)))
  number)

; The greatest common divisor, by Euclid.
(defun gcd (first second)
  (assure <integer> first)
  (assure <integer> second)
  (while (/= second 0)
    (let ((rest (mod first second)))
      (setq first second)
      (setq second rest)))
  (abs first))

; The least common multiple, 0 where one of the numbers is 0.
(defun lcm (first second)
  (assure <integer> first)
  (assure <integer> second)
  (if (or (= first 0) (= second 0))
      0
      (abs (* (div first (gcd first second)) second))))

; The greatest integer whose square is no greater than the number: bit by bit, from the highest that may be set.
(defun isqrt (number)
  (%natural number)
  (let ((root 0) (bit 16384))
    (while (> bit 0)
      (let ((greater (+ root bit)))
        (if (<= greater (div number greater)) (setq root greater)))
      (setq bit (div bit 2)))
    root))

; A number to the power of an exponent that is no less than 0.
(defun expt (base exponent)
  (assure <integer> base)
  (%natural exponent)
  (%power base exponent))

(defun %power (base exponent)
  (cond ((= exponent 0) 1)
        ((= (mod exponent 2) 1) (* base (%power base (- exponent 1))))
        (t (let ((half (%power base (div exponent 2))))
             (* half half)))))

; The number that a string has the text of, as it stands in a program: blanks in front of it are passed over, and what is behind it is
; not looked at, unless it would go on as a name.
(defun parse-number (string)
  (let* ((start (%behind-blanks string)) (radix (%radix-at string start)))
    (if (null radix)
        (%integer-at string start 10)
        (%integer-at string (+ start 2) radix))))

(defun %behind-blanks (string)
  (let ((index 0) (end (%string-length string)))
    (while (and (< index end) (%is-blank (%char-code (%char-at string index))))
      (setq index (+ index 1)))
    index))

(defun %is-blank (code)
  (or (= code 32) (= code 9) (= code 10) (= code 12) (= code 13)))

; The radix that #b, #o or #x names at an index, nil where none of these stands there.
(defun %radix-at (string index)
  (if (eql (%char-or-nil string index) #\#)
      (let ((letter (%char-or-nil string (+ index 1))))
        (cond ((or (eql letter #\b) (eql letter #\B)) 2)
              ((or (eql letter #\o) (eql letter #\O)) 8)
              ((or (eql letter #\x) (eql letter #\X)) 16)
              (t nil)))
      nil))

; The character at an index, nil where the string ends before it.
(defun %char-or-nil (string index)
  (if (< index (%string-length string)) (%char-at string index) nil))

; The integer that stands at an index: a sign, which may be left out, and digits of the radix, at least one.
(defun %integer-at (string index radix)
  (let* ((sign (%char-or-nil string index))
         (first (if (or (eql sign #\-) (eql sign #\+)) (+ index 1) index))
         (end (%behind-digits string first radix)))
    (if (or (= first end) (%goes-on-at string end)) (%parse-error))
    (%value-of-digits string first end radix (if (eql sign #\-) -1 1))))

(defun %behind-digits (string index radix)
  (while (%digit-value (%char-or-nil string index) radix)
    (setq index (+ index 1)))
  index)

(defun %goes-on-at (string index)
  (let ((character (%char-or-nil string index)))
    (and (not (null character))
         (or (%is-name-character character)
             (and (char<= #\A character) (char<= character #\Z))))))

; Each digit counts with the sign, since the least integer has no opposite.
(defun %value-of-digits (string index end radix sign)
  (let ((number 0))
    (while (< index end)
      (setq number (+ (* number radix) (* sign (%digit-value (%char-at string index) radix))))
      (setq index (+ index 1)))
    number))

; What a character counts as a digit of the radix; nil where it is none, and where there is no character.
(defun %digit-value (character radix)
  (let ((value (if (null character) radix (%code-value (%char-code character)))))
    (if (< value radix) value nil)))

; 0 to 9 for the code of a digit, 10 to 35 for that of a letter, 36 for any other code.
(defun %code-value (code)
  (cond ((< code 48) 36)
        ((< code 58) (- code 48))
        ((< code 65) 36)
        ((< code 91) (- code 55))
        ((< code 97) 36)
        ((< code 123) (- code 87))
        (t 36)))
