"""A client of the coordination server: uploads, clashes, topics and BCF files."""

VERSION = "1.0"
