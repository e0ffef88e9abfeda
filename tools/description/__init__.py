"""What the scripts know of the types: the grammar's rows, and the declarations."""
