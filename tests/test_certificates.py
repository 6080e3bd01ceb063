"""Certificates: whole ones, and their lines rule by rule."""
from tests import pages


class Certificates(pages.Page, page="cases/certificates.md"):
    """Whole certificates."""


class Lines(pages.Page, page="cases/certificate_lines.md"):
    """Lines rule by rule."""
