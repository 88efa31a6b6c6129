"""Tests of README.md that need no library: its first screen shows rows that `./run` prints, and its words are those of the files."""
import os
import re
import unittest

ROOT = os.path.join(os.path.dirname(os.path.abspath(__file__)), "..", "..")


def read(name):
    with open(os.path.join(ROOT, name), encoding="utf-8") as file:
        return file.read()


class FirstScreen(unittest.TestCase):
    """What stands before the first language: the rows with shrinking off, all of them, as they are printed."""

    def test_rows(self):
        screen = read("README.md").split("\n## From C")[0]
        printed = read("captions/cs-sk.expected").splitlines()
        off = [line for line in printed if re.match(r"1e-\d +\d+  off ", line)]
        head = printed[: printed.index(off[0])]
        self.assertEqual((len(off), len(head)), (4, 4))
        block = "\n".join(("    " + line).rstrip() for line in head + off)
        self.assertIn("\n\n" + block + "\n\n", screen)

    def test_first_screen_has_no_row_with_shrinking(self):
        screen = read("README.md").split("\n## From C")[0]
        self.assertIsNone(re.search(r"^    1e-\d +\d+  on ", screen, re.MULTILINE))


class Python(unittest.TestCase):
    def test_it_is_tried(self):
        """What is shown is part of a docstring, which is run as a test."""
        shown = re.search(r"^```python\n(.*?)^```$", read("README.md"), re.MULTILINE | re.DOTALL).group(1).splitlines()
        self.assertGreater(len(shown), 5)
        self.assertIn("\n".join("    " + line for line in shown), read("host/python/altuliscia.py").split('"""')[1])

    def test_modules_are_there(self):
        part = read("README.md").split("\n## From Python\n")[1].split("\n## ")[0]
        named = set(re.findall(r"altuliscia(?:_\w+)?(?=`)", part))
        self.assertEqual(len(named), 4)
        for name in named:
            self.assertTrue(os.path.exists(os.path.join(ROOT, "host", "python", name + ".py")), name)


class Blocks(unittest.TestCase):
    def blocks(self):
        """The commands, a line each: what is indented, but what programs print."""
        lines = re.findall(r"^    (\S.*)$", read("README.md"), re.MULTILINE)
        return [line for line in lines if re.match(r"(\./|cc |cd |cargo |make |mkdir |python3 |target/|tools/)", line)]

    def test_one_folder_for_the_archive(self):
        commands = self.blocks()
        self.assertGreater(len(commands), 15)
        linked = [line for line in commands if "libaltuliscia.a" in line]
        self.assertTrue(linked)
        for line in linked:
            self.assertIn("lib/$(uname -m)/libaltuliscia.a", line)

    def test_what_is_named_is_there(self):
        named = [word for line in self.blocks() for word in line.split("#")[0].split() if "/" in word]
        own = [word for word in named if re.match(r"(\./)?(run|test|tools/|host/|include/)", word)]
        self.assertGreater(len(own), 4)
        for word in own:
            self.assertTrue(os.path.exists(os.path.join(ROOT, word)), word)


if __name__ == "__main__":
    unittest.main()
