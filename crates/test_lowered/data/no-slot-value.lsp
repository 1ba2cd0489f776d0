(defclass <k> () ((s :reader s-of))) (s-of (create (class <k>)))
