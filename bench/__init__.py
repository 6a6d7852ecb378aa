"""What is measured, over the built program or over single crates: each by its name (README.md has
the list)."""
