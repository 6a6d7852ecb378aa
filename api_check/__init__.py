"""Checks that docs/openapi.yaml is a right description of what the built program answers."""
