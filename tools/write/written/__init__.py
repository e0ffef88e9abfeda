"""What is written of a declared type: an `impl` after the other, each kind in a module of its own."""
