"""Each crate, module, file and name that the pages cite is there."""
import os
import re
import unittest

ROOT = os.path.realpath(f"{os.path.dirname(os.path.realpath(__file__))}/../..")
CRATES = f"{ROOT}/crates"
PAGES = ("README.md", "docs/ARCHITECTURE.md", "docs/CONTRIBUTING.md", "docs/DECISIONS.md", "docs/DEFINITIONS.md")
WORD = re.compile(r"\w+")


def words_under(*places):
    """Returns the words of all texts at and under some places, names of files among them."""
    found = set()
    for place in places:
        walked = [(os.path.dirname(place), [], [os.path.basename(place)])] if os.path.isfile(place) else os.walk(place)
        for at, _, names in walked:
            for name in names:
                if name.endswith((".rt", ".antt", ".py", ".edit", ".md")) and "/out/" not in f"{at}/":
                    found.update(WORD.findall(name))
                    with open(f"{at}/{name}", encoding="utf-8") as file:
                        found.update(WORD.findall(file.read()))
    return found


def lacking(cited):
    """Returns the first part of a path of modules that its crate lacks, or nothing."""
    crate, *parts = cited.split("::")
    at = f"{CRATES}/{crate}/src"
    while parts and (os.path.isdir(f"{at}/{parts[0]}") or os.path.isfile(f"{at}/{parts[0]}.rt")):
        at += f"/{parts.pop(0)}"
    if not parts:
        return ""
    places = [it for it in (at, f"{at}.rt") if os.path.exists(it)]
    return "" if parts[0] in words_under(*places) else parts[0]


class NamesTest(unittest.TestCase):
    def setUp(self):
        self.crates = set(os.listdir(CRATES))

    def pages(self):
        for page in PAGES:
            with open(f"{ROOT}/{page}", encoding="utf-8") as file:
                yield page, file.read()

    def test_paths_of_modules_are_there(self):
        for page, text in self.pages():
            for cited in re.findall(r"`(\w+(?:::\w+)+)", text):
                if cited.split("::")[0] in self.crates:
                    self.assertEqual("", lacking(cited), f"{page}: {cited}")

    def test_files_are_there(self):
        for page, text in self.pages():
            for cited in re.findall(r"`(\w+/(?:specs|proofs|src)(?:/\w+)*)", text):
                if cited.split("/")[0] in self.crates:
                    at = f"{CRATES}/{cited}"
                    self.assertTrue(any(map(os.path.exists, (at, f"{at}.antt", f"{at}.rt"))), f"{page}: {cited}")

    def test_names_of_several_words_stand_somewhere(self):
        known = self.crates | words_under(CRATES, f"{ROOT}/tools")
        for page, text in self.pages():
            for name in re.findall(r"`([a-z]+(?:_[a-z]+)+)`", text):
                self.assertIn(name, known | {"atomic_table", "crossbeam_queue"}, page)

    def test_crates_are_on_the_map(self):
        with open(f"{ROOT}/docs/ARCHITECTURE.md", encoding="utf-8") as file:
            told = set(WORD.findall(file.read()))
        self.assertEqual(set(), self.crates - told)


if __name__ == "__main__":
    unittest.main()
