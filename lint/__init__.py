"""What is listed of the repository, in seconds: each by its name (python3 -m lint.edits), all by
python3 -m lint."""
