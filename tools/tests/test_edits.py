"""Parked edits: each one still applies."""
import os
import tempfile
import unittest

import parked_edits

ROOT = os.path.dirname(os.path.dirname(os.path.dirname(os.path.realpath(__file__))))


class ParkedEdits(unittest.TestCase):
    def test_each_parked_edit_applies(self):
        self.assertEqual(parked_edits.misfits(ROOT), [])

    def test_a_text_that_stands_twice_or_nowhere_is_told(self):
        with tempfile.TemporaryDirectory() as root:
            crate = f"{root}/crates/c"
            os.makedirs(f"{crate}/must-fail")
            os.makedirs(f"{crate}/src")
            with open(f"{crate}/src/lib.rt", "w", encoding="utf-8") as it:
                it.write("fn one() -> u8 {\n    1\n}\nfn two() -> u8 {\n    1\n}\n")
            for name, old in (("twice", "    1"), ("nowhere", "    3"), ("once", "fn two")):
                with open(f"{crate}/must-fail/{name}.edit.md", "w", encoding="utf-8") as it:
                    it.write(f"file: src/lib.rt\nold: {old}\nnew: 2\n")
            with open(f"{crate}/must-fail/empty.edit.md", "w", encoding="utf-8") as it:
                it.write("nothing\n")
            told = parked_edits.misfits(root)
            self.assertEqual([it.split(":")[0] for it in told], ["c/empty.edit.md", "c/nowhere.edit.md", "c/twice.edit.md"])
            self.assertIn("2 times", told[2])


if __name__ == "__main__":
    unittest.main()
