"""The sentences of tools/annotate --explain that need no program: each code has one."""
import re
import unittest

import context
from hags_tools import explanations, records
from hags_tools.playing import Step

MESSAGES = (context.TOP / "docs" / "messages.md").read_text()


def sentence(call, record):
    return explanations.of_record(Step(1, call.encode()), records.read(record), explanations.Names())


class Sentences(unittest.TestCase):
    def test_each_refusal_has_a_sentence(self):
        codes = re.findall(r"^\| `([A-Z_]+)((?: [a-z]+)?)(?: [A-Z0-9]+)?` \|", MESSAGES.split("## `told`")[0], re.MULTILINE)
        self.assertGreater(len(codes), 15)
        for code, detail in codes:
            detail = detail or {"COLLIDE": " 3", "SESSIONS_FULL": " 64"}.get(code, "")
            with self.subTest(code + detail):
                self.assertTrue(sentence("join a db 1", f"refused 1.a {code}{detail}"))

    def test_each_telling_has_a_sentence(self):
        part = MESSAGES.split("## `told`")[1].split("\n## ")[0]
        codes = re.findall(r"^\| `([A-Z_]+)", part, re.MULTILINE)
        self.assertGreater(len(codes), 8)
        for code in codes:
            with self.subTest(code):
                self.assertTrue(sentence("join a db 1", f"told 1.1.7.1 1 {code} 64"))


if __name__ == "__main__":
    unittest.main()
