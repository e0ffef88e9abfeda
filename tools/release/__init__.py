"""What makes a release, and what its parts are held to."""
