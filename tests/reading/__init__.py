"""Compares the reading of files by `check` with that of a plain program."""
