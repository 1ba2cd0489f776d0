(apply #'car 5)
