"""Makes tables of CSV files: bw codes the rows, and Python decides what the distinct fields are."""
