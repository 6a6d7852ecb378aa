"""What is within the limits is taken by the built program, if there is memory."""
