(throw 'done 1)
