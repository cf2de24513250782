"""What measures the built program."""
