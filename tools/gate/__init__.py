"""The order in which the gate proves, and how long it takes."""
