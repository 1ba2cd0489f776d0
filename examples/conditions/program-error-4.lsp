(create (class <list>))
