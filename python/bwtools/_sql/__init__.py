"""SQL: a statement's syntax tree, what its names mean, and what answers it."""
