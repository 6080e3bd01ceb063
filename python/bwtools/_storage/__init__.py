"""Tables in files: their columns files, their shards, and how they are replaced."""
