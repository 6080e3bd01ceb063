"""What users do with a table, step by step."""
from tests import pages


class Recipes(pages.Page, page="cases/recipes.md"):
    """What the cookbook leaves out."""
