unbound-thing
