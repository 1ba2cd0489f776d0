(continue-condition (create (class <error>)))
