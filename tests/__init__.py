"""The tests of the built program as a whole, each run by its name: python3 -m tests.serve PROGRAM
(README.md has the list)."""
