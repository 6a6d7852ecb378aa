"""Fills the book of the built program's server up to its limits."""
