"""Tests of make.py on captions made up here; the package isn't needed."""
import io
import itertools
import os
import struct
import tempfile
import unittest
from unittest import mock

import make


def mo(entries):
    """A compiled catalogue."""
    texts = [text.encode("utf-8") for pair in entries for text in pair]
    start, places, data = 28 + 16 * len(entries), [], b""
    for text in texts:
        places.append(struct.pack("<2I", len(text), start + len(data)))
        data += text + b"\0"
    head = struct.pack("<7I", 0x950412DE, 0, len(entries), 28, 28 + 8 * len(entries), 0, 0)
    return head + b"".join(places[0::2]) + b"".join(places[1::2]) + data


class Catalogues(unittest.TestCase):
    def read(self, data):
        with tempfile.TemporaryDirectory() as folder:
            path = os.path.join(folder, "some.mo")
            with open(path, "wb") as file:
                file.write(data)
            return [tuple(pair) for pair in make.read_mo(path)]

    def test_entries(self):
        entries = [("", "head"), ("Save", "Uložit"), ("%d day\0%d days", "den\0dny\0dní"), ("menu\x04File", "Soubor")]
        told = self.read(mo(entries))
        self.assertEqual(told, [("", "head"), ("Save", "Uložit"), ("%d day", "den"), ("menu\x04File", "Soubor")])

    def test_another_file(self):
        with self.assertRaises(SystemExit):
            self.read(b"\0" * 28)


class Selection(unittest.TestCase):
    def test_text(self):
        self.assertEqual(make.plain("Not-\t Aus\n"), " not- aus ")

    def test_usable(self):
        self.assertTrue(make.usable("Přidat další"))
        for caption in ("%s dní", "{0} dní", "<b>dní</b>", "dny\ndní", "1 - 2"):
            self.assertFalse(make.usable(caption))

    def test_left_out(self):
        first = {"a": "Ano", "b": "Ne", "c": "Start", "d": "ano", "e": "Jen zde", "f": "%s"}
        second = {"a": "Áno", "b": "Nie", "c": "Start", "d": "Hej", "f": "Nic"}
        # SHA-256 puts b (3e23..) before a (ca97..), and d (18ac..) before both. d's caption is a's, so a goes.
        self.assertEqual(make.selected(first, second), [(" ano ", " hej "), (" ne ", " nie ")])

    def test_left_out_of_several(self):
        first = {"a": "Ano", "b": "Ne", "d": "Dva", "e": "Zde", "f": "Nic"}
        second = {"a": "Áno", "b": "Nie", "d": "Dve", "e": "Tu", "f": "Nul"}
        third = {"a": "Ja", "b": "Nej", "d": "dva", "e": "{0}", "g": "Mer"}
        # d has the same text twice, e a template, f and g aren't in all.
        self.assertEqual(make.selected(first, second, third), [(" ne ", " nie ", " nej "), (" ano ", " áno ", " ja ")])
        # Without the third d is there, and before both.
        self.assertEqual(make.chosen(first, second)[:2], ["d", "f"])
        # One caption of b was taken from d, in another language, so b goes.
        third["d"] = "Ne"
        self.assertEqual(make.chosen(first, second, third), ["d", "a"])


class Texts(unittest.TestCase):
    FIRST = {"a": "Přidat\xa0 další", "b": "Ne\u2028", "c": "Start"}
    SECOND = {"a": "Pridať ďalší", "b": "Nie", "c": "Start"}

    def test_lines_are_the_captions_in_the_order_of_the_figures(self):
        lines = ["Ne", "Nie", "Přidat další", "Pridať ďalší"]
        for count in range(6):
            self.assertEqual(make.texts(self.FIRST, self.SECOND, count), lines[:count])
        plain = [text for pair in make.selected(self.FIRST, self.SECOND) for text in pair]
        self.assertEqual([make.plain(line) for line in lines], plain)

    def test_held_out_captions_are_not_among_them(self):
        many = {f"m{k}": f"a{k}" for k in range(make.TRAINING_MSGIDS + 5)}
        others = {msgid: caption.replace("a", "b") for msgid, caption in many.items()}
        self.assertEqual(len(make.texts(many, others, 10_000)), 2 * make.TRAINING_MSGIDS)

    def test_printed(self):
        with tempfile.TemporaryDirectory() as folder, mock.patch("make.ROOT", folder), mock.patch("make.installed"):
            for language, captions in (("cs", self.FIRST), ("sk", self.SECOND)):
                place = os.path.join(folder, "conf", "locale", language, "LC_MESSAGES")
                os.makedirs(place)
                with open(os.path.join(place, "django.mo"), "wb") as file:
                    file.write(mo(list(captions.items())))
            with mock.patch("sys.stdout", io.TextIOWrapper(io.BytesIO(), encoding="ascii")) as out:
                make.main(["texts", "cs", "sk", "3"])
                self.assertEqual(out.buffer.getvalue().decode("utf-8"), "Ne\nNie\nPřidat další\n")

    def test_wrong_words(self):
        for words in (["texts"], ["texts", "cs", "sk"], ["texts", "cs", "xx", "4"], ["texts", "cs", "sk", "x"]):
            with self.assertRaises(SystemExit) as caught:
                make.main(words)
            self.assertIn("captions/make.py texts FIRST SECOND N", str(caught.exception))


class Figures(unittest.TestCase):
    def naive(self, a, b):
        return sum(count * b[gram] for gram, count in a.items())

    def test_grams(self):
        counts = make.grams(" aa ")
        self.assertEqual(dict(counts), {" ": 2, "a": 2, " a": 1, "aa": 1, "a ": 1, " aa": 1, "aa ": 1})

    def test_rows_are_sums_of_products(self):
        captions = [make.grams(make.plain(t)) for t in ("Uložit", "Uložiť", "Přidat další", "Zpět", "aaaaaaaaaaaaaaaaaaaaaaaa")]
        products = make.Products(captions)
        for a in captions + [make.grams(" jiné ")]:
            self.assertEqual(list(products.row(a)), [self.naive(a, b) for b in captions])

    def test_too_long(self):
        long = make.grams("a" * 70000)
        with self.assertRaises(SystemExit):
            make.Products([long]).row(long)

    def test_lines(self):
        pairs = [(f" a{k} ", f" b{k} ") for k in range(make.TRAINING_MSGIDS + 1)]
        lines = make.figures(pairs, 4, ["head"]).splitlines()
        self.assertEqual(lines[:3], ["head", "train 4", "held 2"])
        self.assertEqual([len(line.split()) for line in lines[3:]], [2, 3, 4, 5, 6, 6])
        self.assertEqual([line.split()[0] for line in lines[3:]], ["1", "0", "1", "0", "1", "0"])
        train = [make.grams(t) for pair in pairs[:2] for t in pair]
        held = make.grams(pairs[-1][1])
        last = [0, self.naive(held, held)] + [self.naive(held, t) for t in train]
        self.assertEqual([int(word) for word in lines[-1].split()], last)


class Twelve(unittest.TestCase):
    def parts(self, line):
        """A caption's label and its parts' numbers."""
        label, *gaps = map(int, line.split())
        return label, list(itertools.accumulate(gaps))

    def test_parts_have_the_products_of_the_texts(self):
        texts = [("Uložit", "Uložiť", "Save"), ("Zpět", "Späť", "Back"), ("aaaa", "aabaa", "Ahoj")]
        texts = [tuple(make.plain(text) for text in group) for group in texts]
        with mock.patch("make.TRAINING_MSGIDS", 2):
            lines = make.parts(texts, 1, ["head"]).splitlines()
        self.assertEqual(lines[:3], ["head", "train 3", "held 3"])
        told = [self.parts(line) for line in lines[3:]]
        self.assertEqual([label for label, _ in told], [1, 2, 3, 1, 2, 3])
        counts = [make.Counter(numbers) for _, numbers in told]
        grams = [make.grams(text) for group in (texts[0], texts[2]) for text in group]
        for a, x in zip(counts, grams):
            for b, y in zip(counts, grams):
                self.assertEqual(sum(a[part] * b[part] for part in a), sum(x[gram] * y[gram] for gram in x))

    def test_parts_are_numbered_by_how_often_they_stand(self):
        with mock.patch("make.TRAINING_MSGIDS", 1):
            lines = make.parts([(" a ", " aa "), (" b ", " a ")], 1, []).splitlines()
        # ' ' stands eight times, 'a' four, ' a' and 'a ' three, ' a ' two, all others one; of equals the first by its characters is first.
        self.assertEqual(lines[2:], ["1 0 0 1 1 1 1", "2 0 0 1 0 1 1 2 3 1", "1 0 0 6 1 3 1", "2 0 0 1 1 1 1"])

    def test_which_are_held_out(self):
        taken = [(f" a{k} ", f" b{k} ", f" c{k} ") for k in range(make.TRAINING_MSGIDS + 2)]
        for of_each in (1, 5, make.TRAINING_MSGIDS):
            lines = make.parts(taken, of_each, []).splitlines()
            self.assertEqual(lines[:2], [f"train {3 * of_each}", "held 6"])
            self.assertEqual(len(lines), 2 + 3 * of_each + 6)

    def test_written(self):
        catalogue = {f"m{k}": f"caption {k}" for k in range(make.TRAINING_MSGIDS + 1)}
        own = {language: {m: f"{c} {language}" for m, c in catalogue.items()} for language in make.LANGUAGES}
        with tempfile.TemporaryDirectory() as folder, mock.patch("make.installed", return_value="1"), \
                mock.patch("make.catalogue", side_effect=own.get):
            make.main(["twelve", "2", folder])
            self.assertEqual(os.listdir(folder), ["twelve.txt"])
            with open(os.path.join(folder, "twelve.txt"), encoding="ascii") as file:
                lines = file.read().splitlines()
            self.assertTrue(lines[0].endswith("made by: captions/make.py twelve 2"))
            self.assertEqual(lines[3:6], ["languages " + " ".join(make.LANGUAGES), "train 24", "held 12"])
            make.main(["ship", folder])
            self.assertEqual(sorted(os.listdir(folder)), ["cs-sk.txt", "da-sv.txt", "twelve.txt"])
            with open(os.path.join(folder, "twelve.txt"), encoding="ascii") as file:
                self.assertIn(f"\ntrain {12 * make.SHIPPED_OF_EACH}\n", file.read())

    def test_wrong_words(self):
        for words in (["twelve"], ["twelve", "0"], ["twelve", "257"], ["twelve", "x"], ["twelve", "-1"], ["twelve", "8", "a", "b"]):
            with self.assertRaises(SystemExit) as caught:
                make.main(words)
            self.assertIn("captions/make.py twelve N [FOLDER]", str(caught.exception))


if __name__ == "__main__":
    unittest.main()
