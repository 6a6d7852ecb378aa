"""What the built program asks of the system: addresses, options, reads, writes, memory."""
