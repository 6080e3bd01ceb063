"""Schemas and CSV files: what is loaded, and what is rejected."""
from tests import pages


class Csv(pages.Page, page="cases/csv.md"):
    """That page row by row."""


class Texts(pages.Page, page="cases/texts.md"):
    """Texts of schemas and CSV files."""
