#!/usr/bin/env python3
"""Tests the translator by forms.txt: what it makes of each form, or by which line it refuses it."""
import re
import unittest
from pathlib import Path

from translate import Refusal, Translation

CASE = re.compile(r"(?ms)^=== ([^\n]*)\n(.*?)\n--- is( refused)?\n(.*?)\n+(?=^===|\Z)")
CRATES = {"dw_num", "dw_op"}


def translated(text, module="dw_op", home="crate::proved"):
    """The text behind the line that names the origin."""
    origin, _, rest = Translation("a.rt", text, module, CRATES, home).text().partition("\n")
    assert origin == "// Made by edition/translate.py from a.rt: change that, not this."
    return rest.strip()


class Forms(unittest.TestCase):
    def test_forms(self):
        cases = CASE.findall(Path(__file__).with_name("forms.txt").read_text())
        self.assertGreater(len(cases), 30)
        for name, given, is_refused, wanted in cases:
            with self.subTest(name):
                if is_refused:
                    with self.assertRaises(Refusal) as refused:
                        translated(given)
                    self.assertEqual(str(refused.exception), f"a.rt:{wanted}")
                else:
                    self.assertEqual(translated(given), wanted)

    def test_program(self):
        text = translated("fn main(rt: HostRuntime) {}", "program")
        self.assertIn("pub fn main(rt: HostRuntime) {}", text)

    def test_another_package(self):
        text = translated("use dw_num::C;\npub(crate) fn f() {}", "dw_library", "dwframe::proved")
        wanted = "use dwframe::proved::dw_num::C;\npub(in crate::dw_library) fn f() {}"
        self.assertEqual(text, wanted)


if __name__ == "__main__":
    unittest.main()
