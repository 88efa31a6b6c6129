"""Tests of altuliscia_languages.py over the shared object."""
import doctest
import math
import pickle
import random
import re
import sys
import unittest
from itertools import accumulate, combinations

import altuliscia
import altuliscia_languages
from altuliscia import Asymmetric, InfeasibleNu, NotReleasable, Refusal, Votes, fit_c, fit_nu, pairs
from altuliscia_languages import fit_languages
from test_altuliscia import bits, identity, read, told
from test_doubts import Doubts


def load_tests(loader, tests, pattern):
    tests.addTests(doctest.DocTestSuite(altuliscia_languages))
    return tests


def drawn(draw, languages, n):
    """A matrix and labels, of so many languages, each of which is there; and rows."""
    points = [(draw.gauss(0, 1), draw.gauss(0, 1)) for _ in range(n + 5)]
    matrix = [[math.exp(-(x - u) ** 2 - (y - v) ** 2) for u, v in points[:n]] for x, y in points]
    labels = [k % languages + 1 for k in range(n)]
    draw.shuffle(labels)
    return matrix[:n], labels, matrix[n:]


class Sorted(Doubts):
    def test_by_hand(self):
        """Each pair is that of its own samples, and the votes are of these."""
        draw = random.Random(2)
        for languages in (2, 3, 5, 12):
            matrix, labels, rows = drawn(draw, languages, 4 * languages)
            retired = [k for k in range(len(labels)) if draw.random() < 0.2 and labels[:k].count(labels[k])]
            for options in ({"C": 2.0, "retired": retired}, {"C": 0.5, "eps": 1e-3}, {"nu": 0.2, "retired": []}, {}):
                sorter = fit_languages(matrix, labels, **options)
                gone, homes, samples, rhos = options.get("retired", []), [], [], []
                for fit, numbers, (first, second) in zip(sorter.fits, sorter.samples, pairs(languages)):
                    self.assertEqual(numbers, [k for k, label in enumerate(labels) if label in (first, second)])
                    stand = [k for k in numbers if k not in gone]
                    part = [[matrix[c][r] for r in stand] for c in stand], [labels[k] == first for k in stand]
                    given = {name: value for name, value in options.items() if name != "retired"}
                    alone = (fit_nu if "nu" in options else fit_c)(*part, **given)
                    weights = dict(zip(stand, alone.home))
                    self.assertEqual(bits(fit.home), bits([weights.get(k, 0.0) for k in numbers]))
                    self.assertEqual((fit.rho, fit.n_iter_, fit.classes_), (alone.rho, alone.n_iter_, [second, first]))
                    homes, samples, rhos = homes + [alone.home], samples + [stand], rhos + [alone.rho]
                expected = altuliscia.votes_of_rows(languages, homes, samples, rhos, rows)
                spoilt = [[None if k in gone else value for k, value in enumerate(row)] for row in rows]
                self.assertEqual(sorter.votes(spoilt), expected)
                self.assertEqual(sorter.predict(rows), [one.winner for one in expected])

    def test_forms(self):
        matrix, labels, rows = drawn(random.Random(3), 3, 12)
        plain = fit_languages(matrix, labels)
        names = fit_languages(matrix, ["xyz"[label - 1] for label in labels], 1.0)
        self.assertEqual([told(fit) for fit in names.fits], [told(fit) for fit in plain.fits])
        self.assertEqual((names.classes_, names.pairs), (["x", "y", "z"], [("x", "y"), ("x", "z"), ("y", "z")]))
        back = pickle.loads(pickle.dumps(names))
        self.assertEqual((repr(back), back.predict(rows)), (repr(names), names.predict(rows)))
        self.assertEqual(names.score(rows, names.predict(rows)), 1.0)
        # Another order: a pair is trained the other way round, and of equal votes another wins.
        turned = fit_languages(matrix, labels, languages=[3, 2, 1])
        self.assertEqual((turned.classes_, turned.pairs), ([3, 2, 1], [(3, 2), (3, 1), (2, 1)]))
        same = fit_languages([[1.0] * 3] * 3, [1, 2, 3], languages=[2, 3, 1])
        self.assertEqual(same.votes([[1] * 3]), [Votes(1, [2, 1, 0], [1])])
        self.assertEqual(same.predict([[1] * 3]), [2])

    def test_weights(self):
        matrix, labels, _ = drawn(random.Random(5), 3, 9)
        sorter = fit_languages(matrix, labels, retired=[4])
        for k, label in enumerate(labels):
            found = sorter.weights(k)
            self.assertEqual(set(found), {two for two in combinations((1, 2, 3), 2) if label in two})
            for two, weight in found.items():
                place = sorter.pairs.index(two)
                self.assertEqual(weight, sorter.fits[place].home[sorter.samples[place].index(k)])
        self.assertEqual(set(sorter.weights(4).values()), {0.0})
        for number in (9, -1):
            with self.assertRaises(ValueError):
                sorter.weights(number)

    def test_more_than_512(self):
        n = 600
        labels = [k % 3 for k in range(n)]
        sorter = fit_languages(identity(n), labels, budget=10_000)
        self.assertEqual([len(fit.home) for fit in sorter.fits], [400] * 3)
        with self.assertRaises(Refusal) as caught:
            fit_languages(identity(n), [k % 2 for k in range(n)])
        self.assertEqual(str(caught.exception), "refusal 1: 0 and 1 have 600 samples: two languages may have 512 together")


class Doubtful(Doubts):
    def test_released(self):
        matrix, labels, _ = drawn(random.Random(7), 4, 16)
        fine, _ = self.warns([], lambda: fit_languages(matrix, labels))
        self.assertTrue(fine.releasable)
        sorter, words = self.warns([NotReleasable], lambda: fit_languages(matrix, labels, budget=1))
        self.assertFalse(sorter.releasable)
        self.assertIn("1 and 2: the budget ran out after 1 steps; 1 and 3: ", words[0])
        self.assertIn("; and 3 more pairs", words[0])
        # Nobody is left of language 4.
        gone = [k for k, label in enumerate(labels) if label == 4]
        sorter, words = self.warns([NotReleasable], lambda: fit_languages(matrix, labels, retired=gone))
        self.assertEqual([fit.releasable for fit in sorter.fits], [4 not in two for two in sorter.pairs])
        matrix[1][0] += 1.0
        self.warns([Asymmetric], lambda: fit_languages(matrix, labels))
        self.warns([], lambda: fit_languages(matrix, labels, retired=[0]))

    def test_nu(self):
        matrix, _, _ = drawn(random.Random(9), 2, 8)
        _, words = self.warns([InfeasibleNu, NotReleasable], lambda: fit_languages(matrix, [1, 2, 3, 3, 3, 3, 3, 2], nu=0.5))
        self.assertIn("1 and 3: nu 0.5 is infeasible: the smaller class has 1 of 6 samples", words[0])


class Refused(unittest.TestCase):
    def test_each(self):
        matrix = identity(3)
        spoilt = [list(column) for column in matrix]
        spoilt[2][1] = math.nan
        for given, options, number, words in (
            ((matrix[:2], [1, 2, 3]), {}, 2, "matrix is 2x3, needs 3x3"),
            ((spoilt, [1, 2, 3]), {}, 3, "the kernel value in column 2, row 1 is nan: "),
            ((matrix, [1, 2, 0.5]), {}, 4, "the label of sample 2 is 0.5: whole numbers are taken, or strings"),
            ((matrix, [1, 2, math.nan]), {}, 4, "the label of sample 2 is nan"),
            ((matrix, [1, 2, 3], -1), {}, 5, "C is -1: a ceiling is above 0 and at most 2^1000"),
            ((matrix, [1, 2, 3]), {"tol": -1.0}, 8, "eps (tol) is -1.0"),
            ((matrix, [1, 2, 3]), {"shrinking": True, "retired": [0]}, 13, "shrinking is on and samples are retired"),
        ):
            with self.assertRaises(Refusal) as caught:
                fit_languages(*given, **options)
            self.assertEqual(caught.exception.number, number)
            self.assertIn(words, str(caught.exception))
            self.assertEqual(caught.exception.index, {3: 7, 4: 2}.get(number, 0))

    def test_others(self):
        matrix = identity(3)
        for labels, options, kind, words in (
            ([1, 1, 1], {}, ValueError, "2 to 12 languages are sorted, not 1"),
            ([1, 2, 3], {"languages": [1, 2]}, ValueError, "languages are all labels, each once: 3 is none of them"),
            ([1, 2, 2], {"languages": [1, 2, 3]}, ValueError, "languages are all labels, each once: nothing has the label 3"),
            ([1, 2, 2], {"languages": [1, 2, 2]}, ValueError, "languages are all labels, each once: one is given twice"),
            ([1, "a", 2], {}, TypeError, "labels are whole numbers or strings"),
            ([1, None, 2], {}, TypeError, "labels are whole numbers or strings"),
            ([1, 2, 3], {"nu": 0.5, "C": 1.0}, TypeError, "nu is given in place of C"),
            ([1, 2, 3], {"nu": 0.5, "retired": [0]}, TypeError, "nu is given in place of C"),
            ([1, 2, 3], {"eps": 1.0, "tol": 1.0}, TypeError, "eps and tol are two names of one thing"),
            ([1, 2, 3], {"retired": [3]}, ValueError, "sample 3 can't be retired"),
        ):
            with self.assertRaises(kind) as caught:
                fit_languages(matrix, labels, **options)
            self.assertIn(words, str(caught.exception))
        with self.assertRaises(ValueError):
            fit_languages(identity(13), range(13))

    def test_rows(self):
        sorter = fit_languages(identity(3), [1, 2, 3])
        for rows, kind in (([[1, 0]], ValueError), ([[1, 0, 0, 0]], ValueError), ([1.0], TypeError), ([["1", 0, 0]], TypeError)):
            with self.assertRaises(kind):
                sorter.predict(rows)
        with self.assertRaises(ValueError):
            sorter.score([[1, 0, 0]], [4])


def parts(line):
    """Label and counted parts of a caption of captions/twelve.txt."""
    label, *gaps = map(int, line.split())
    counts = {}
    for part in accumulate(gaps):
        counts[part] = counts.get(part, 0) + 1
    return label, counts


class Captions(unittest.TestCase):
    def test_twelve(self):
        """As `./run` says it."""
        lines = [line for line in read("captions/twelve.txt").splitlines() if not line.startswith("#")]
        n, captions = int(lines[2].split()[1]), [parts(line) for line in lines[4:]]

        def product(one, other):
            return sum(count * other.get(part, 0) for part, count in one.items())

        own = [product(counts, counts) for _, counts in captions]

        def row(k):
            return [product(captions[k][1], captions[j][1]) / math.sqrt(own[k] * own[j]) for j in range(n)]

        sorter = fit_languages([row(k) for k in range(n)], [label for label, _ in captions[:n]], C=10, eps=0.001)
        found = sorter.votes([row(k) for k in range(n, len(captions))])
        right = sum(one.winner == label for one, (label, _) in zip(found, captions[n:]))
        ties = sum(len(one.ties) > 1 for one in found)
        self.assertTrue(re.search(rf"^{right} are sorted rightly .* {ties} are ties", read("captions/twelve.expected"), re.MULTILINE), (right, ties))

    def test_panel(self):
        """docs/SORTING.md: the twelve captions of a panel, and nine others."""
        def figures(name):
            rows = [line.split() for line in read(f"host/problems/panel.{name}").splitlines()]
            return [int(row[0]) for row in rows], [[float(word.split(":")[1]) for word in row[2:]] for row in rows]

        labels, matrix = figures("train")
        held, rows = figures("held")
        sorter = fit_languages(matrix, labels, C=0.5, eps=0.001)
        shown = re.findall(r"^ +\d+ +\d+ +(\d) +(\d) +\d +\d +\d  1:(\d) 2:(\d) 3:(\d)", read("docs/SORTING.md"), re.MULTILINE)
        self.assertEqual(len(shown), 9)
        found = [(str(label), str(one.winner), *map(str, one.votes)) for label, one in zip(held, sorter.votes(rows))]
        self.assertEqual(found, shown)


class Arrays(unittest.TestCase):
    def test_numpy(self):
        try:
            import numpy
        except ImportError:
            print("NOT RUN: languages from arrays of numpy; they need numpy (Debian's package python3-numpy)", file=sys.stderr)
            return
        matrix, labels, rows = drawn(random.Random(11), 3, 12)
        plain = fit_languages(matrix, labels, retired=[2])
        fit = fit_languages(numpy.array(matrix), numpy.array(labels), retired=numpy.array([2]))
        self.assertEqual([told(one) for one in fit.fits], [told(one) for one in plain.fits])
        self.assertEqual(fit.votes(numpy.array(rows)), plain.votes(rows))
        self.assertEqual((fit.classes_, type(fit.classes_[0])), ([1, 2, 3], int))
        whole = numpy.identity(3, dtype="uint8")
        self.assertEqual(fit_languages(whole, numpy.array(["a", "b", "c"])).predict(whole), ["a", "b", "c"])


if __name__ == "__main__":
    unittest.main()
