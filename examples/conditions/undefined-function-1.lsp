(print 5)
