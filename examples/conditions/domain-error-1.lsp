(car nil)
