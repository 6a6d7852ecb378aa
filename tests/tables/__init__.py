"""Tables of single faces and pairs that an independent program worked out, over the built
program."""
