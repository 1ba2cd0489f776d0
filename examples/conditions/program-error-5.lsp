(domain-error-object (create (class <domain-error>)))
