"""Has each call of the C library that the built program makes fail in turn."""
