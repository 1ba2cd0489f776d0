(+ count 1)
