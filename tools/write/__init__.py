"""What writes files: of crates, of the packages, of docs/, man/ and tests/."""
