"""Serves over real sockets on the loopback address, and checks each reply against what one thread
answers."""
