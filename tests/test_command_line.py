"""Arguments and sessions."""
from tests import pages


class CommandLine(pages.Page, page="cases/command_line.md"):
    """Arguments, help and version."""


class Sessions(pages.Page, page="cases/session.md"):
    """Statements from standard input."""


class Readme(pages.Page, page="cases/README.md"):
    """The form of these pages."""
