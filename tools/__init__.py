"""How the program is built: without a proof to look at it, and proved."""
