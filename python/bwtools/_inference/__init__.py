"""Type inference: which kind a column of fields has."""
