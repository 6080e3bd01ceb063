"""The program of docs/PYTHON.md, whose parts print what is below them."""
import contextlib
import importlib.util
import io
import os
import re
import traceback

from tests.pages import is_as_wanted
from tests.support import ROOT, Imported

PAGE = ROOT / "docs" / "PYTHON.md"
STORMS = ROOT / "examples" / "storms.csv"
SHOP = ("day,city,price,paid\n2024-01-31,Bern,2.50,true\n2024-02-01,Ulm,12.05,false\n"
        "2024-02-29,Bern,,true\n2024-03-01,Graz,0.30,true\n")
# a part of the program, and what it prints, if a text follows
PART = re.compile(r"^```python\n(.*?)^```\n(?:\n```text\n(.*?)^```\n)?", re.DOTALL | re.MULTILINE)


class Page(Imported):
    tables = {"storms.bw": (STORMS.read_text(),), "shop.bw": (SHOP,)}

    def test_program(self):
        text = PAGE.read_text(encoding="utf-8")
        if not importlib.util.find_spec("pandas"):
            text = text.partition("## Data frames")[0]
        elif not importlib.util.find_spec("matplotlib"):
            text = text.partition("axes =")[0]
        before = os.getcwd()
        self.addCleanup(os.chdir, before)
        os.chdir(self.folder)
        names, parts = {}, PART.findall(text)
        self.assertGreater(len(parts), 4)
        for code, wanted in parts:
            with self.subTest(code), contextlib.redirect_stdout(io.StringIO()) as told:
                try:
                    exec(compile(code, str(PAGE), "exec"), names)
                except Exception:
                    print(traceback.format_exc())
                came = told.getvalue().rstrip("\n").splitlines()
                self.assertTrue(is_as_wanted(wanted.splitlines(), came), "\n".join(came))
        names["connection"].close()
