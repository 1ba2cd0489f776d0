(throw 'x 1)
