"""Table files and files by columns byte by byte, and damage."""
from tests import pages


class Tables(pages.Page, page="cases/tables.md"):
    """Table files, and what is rejected."""


class Columnar(pages.Page, page="cases/columnar.md"):
    """Files by columns, and what is rejected."""
