(signal-condition (create (class <storage-exhausted>)) nil)
