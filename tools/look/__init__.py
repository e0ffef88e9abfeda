"""What looks whether all is as it says."""
