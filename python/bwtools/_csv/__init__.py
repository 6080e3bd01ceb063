"""CSV files: their bytes, their dialects and their records."""
