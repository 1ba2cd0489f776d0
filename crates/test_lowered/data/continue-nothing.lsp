(continue-condition (create (class <error>)) 1)
