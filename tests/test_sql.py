"""The statements of bw: results and errors."""
from tests import pages


class Sql(pages.Page, page="cases/sql.md"):
    """That page row by row."""


class Statements(pages.Page, page="cases/statements.md"):
    """Results and errors."""
