"""What the tests and the measurements share: the server's process, a client, one thread's answers,
rows that pass or fail."""
