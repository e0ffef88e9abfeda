"""What the grammar's rows say of a text."""
