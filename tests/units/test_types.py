"""The types of the tools, and of what makes the package, hold as mypy of Debian judges them. Left out where that is missing."""
import os
import shutil
import subprocess
import tempfile
import unittest

import context

PARTS = {
    "tools": (
        "hags_tools", "annotate", "change-cost", "check-pages", "client-api", "compare", "draw", "explain", "fail-each-memory-call",
        "hags-daemon", "hags-metrics", "hostile", "lint", "order-of-acts", "python-api", "random-script", "view",
    ),
    "packaging": ("manpages.py", "build-deb"),
}


@unittest.skipUnless(shutil.which("mypy"), "there is no mypy")
class Types(unittest.TestCase):
    def test_all(self):
        with tempfile.TemporaryDirectory() as cache:
            environment = {**os.environ, "MYPYPATH": f"{context.TOP}/tools:{context.TOP}/clients/python/src"}
            for folder, what in [(folder, what) for folder, its in PARTS.items() for what in its]:
                words = ["mypy", "--strict", f"--cache-dir={cache}", what]
                ran = subprocess.run(words, cwd=context.TOP / folder, env=environment, capture_output=True, text=True, check=False)
                self.assertEqual(ran.returncode, 0, ran.stdout)


if __name__ == "__main__":
    unittest.main()
