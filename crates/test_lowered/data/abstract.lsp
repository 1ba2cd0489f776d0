(defclass <k> () () (:abstractp t)) (create (class <k>))
