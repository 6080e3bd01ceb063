"""The kinds of columns: what their fields are as whole numbers."""
