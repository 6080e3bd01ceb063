"""A sample of `scripts/hostile`, which attacks the Python package."""
import re

from tests import support


class Sample(support.TestCase):
    def test_each_attack(self):
        script = support.ROOT / "scripts" / "hostile"
        share = ".05" if support.IS_WHOLE else ".002"
        done = support.tool(script, "--share", share, "--seed", "94")
        self.assertEqual((done.status, done.err), (0, ""), done.out)
        self.assertRegex(done.out, r"\n[0-9]{2,} trials, 0 faults\n\Z")
        listed = support.tool(script, "--list")
        tried = re.findall(r"^(\w+): [0-9]+ trials, 0 faults", done.out, re.MULTILINE)
        self.assertEqual([line.split()[0] for line in listed.out.splitlines()], tried)
