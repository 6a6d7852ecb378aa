"""Floods the built program's server over real sockets on the loopback address."""
