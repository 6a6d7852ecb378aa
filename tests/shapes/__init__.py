"""What inputs cost the built program by their shape, beside plain ones of the same size."""
