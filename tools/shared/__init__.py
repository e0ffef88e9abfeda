"""What scripts of several rooms use."""
