"""What runs the texts of tests/ through built programs."""
