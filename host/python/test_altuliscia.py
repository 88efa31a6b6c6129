"""Tests of altuliscia.py over the shared object."""
import doctest
import math
import os
import random
import re
import sys
import unittest
import warnings
from array import array
from itertools import takewhile
from unittest import mock

import altuliscia
from altuliscia import Before, Fit, NoVotes, Refusal, Votes, find_pair, fit_c, fit_general, fit_nu, fit_one_class, pairs, votes, votes_of_rows

ROOT = os.path.join(os.path.dirname(os.path.abspath(__file__)), "..", "..")
IDENTITY = [[1, 0], [0, 1]]


def read(name):
    with open(os.path.join(ROOT, name), encoding="utf-8") as file:
        return file.read()


def load_tests(loader, tests, pattern):
    tests.addTests(doctest.DocTestSuite(altuliscia, setUp=lambda _: setUpModule(), tearDown=lambda _: tearDownModule()))
    return tests


# Many of these fits are doubtful, and say so; test_doubts.py asks when.
doubts = []


def setUpModule():
    doubts.append(warnings.catch_warnings())
    doubts[-1].__enter__()
    warnings.simplefilter("ignore", altuliscia.Doubtful)


def tearDownModule():
    doubts.pop().__exit__()


def identity(n):
    return [[float(c == r) for r in range(n)] for c in range(n)]


def shown(name):
    """The bytes that docs/BYTES.md shows from the line of that name on, up to an empty line or another name."""
    part = re.search(rf"^    {name:<14}(.*(?:\n {{18}}.*)*)", read("docs/BYTES.md"), re.MULTILINE).group(1)
    return bytes(int(word, 16) for line in part.splitlines() for word in takewhile(lambda w: len(w) == 2, line.split()))


def bits(numbers):
    return array("d", numbers).tobytes()


def told(fit):
    """All that a fit answers, doubles bit for bit."""
    numbers = [fit.rho, fit.obj] if fit.r is None else [fit.rho, fit.obj, fit.r]
    counts = (fit.n_iter_, fit.fit_status_, fit.support_, fit.support_count)
    return (bits(fit.home), bits(fit.crate_reading), bits(numbers), *counts, fit.retired_)


class Version(unittest.TestCase):
    def test_it_is_the_repository_s(self):
        self.assertEqual(altuliscia.__version__ + "\n", read("VERSION"))


class Worked(unittest.TestCase):
    """The worked examples of the rule."""

    def test_two_samples(self):
        fit = fit_c(IDENTITY, [1, 0], eps=0.001, budget=2)
        self.assertEqual((fit.home, fit.crate_reading), ([1.0, -1.0], [1.0, -1.0]))
        self.assertEqual((fit.rho, fit.r, fit.obj), (0.0, None, -1.0))
        self.assertEqual((fit.n_iter_, fit.fit_status_), ([1], 0))
        self.assertEqual(fit_c(IDENTITY, [1, 0], eps=0.001, budget=1).fit_status_, 1)
        fit = fit_c(IDENTITY, [True, False], 0.5, 0.5)
        self.assertEqual((fit.home, fit.obj, fit.n_iter_), ([0.5, -0.5], -0.75, [1]))

    def test_one_label(self):
        fit = fit_c(IDENTITY, [1, 1])
        self.assertEqual((fit.home, fit.rho, fit.intercept_), ([0.0, 0.0], -math.inf, [math.inf]))
        self.assertEqual((fit.support_, fit.dual_coef_, fit.n_iter_), ([], [[]], [0]))

    def test_support(self):
        limit = altuliscia.SUPPORT_LIMIT
        self.assertEqual(limit, 2.220446049250313e-14)
        # Both weights rise to their ceiling. The second is the next double above the limit.
        for cost, count in ((limit, 0), (2.2204460492503134e-14, 2), (1e-15, 0), (5e-324, 0), (1.0, 2)):
            fit = fit_c(IDENTITY, [1, 0], cost, cost)
            self.assertEqual((fit.home, fit.support_, fit.support_count), ([cost, -cost], [0, 1], count))
            self.assertEqual(fit.dual_coef_, [fit.home])
        # One that counts beside three that don't; the decision takes all.
        fit = fit_c(identity(4), [1, 0, 0, 0], 1.0, 1e-14)
        self.assertEqual((fit.support_, fit.support_count), ([0, 1, 2, 3], 1))
        # One that is made without the count, as before there was one, counts by the same rule.
        made = Fit([limit, -1.0, math.nan, 0.0, -math.inf], [0.0] * 5, 0.0, None, 0.0, 1, 0, [3])
        self.assertEqual((made.support_count, made.retired_), (2, [3]))
        fit = fit_nu(IDENTITY, [1, 1])
        self.assertTrue(all(math.isnan(weight) for weight in fit.home))
        self.assertEqual((fit.support_, fit.support_count), ([0, 1], 0))

    def general(self, tail):
        n = 3 + tail
        lists = ([100.0] * n, [50.0] * 3 + [100.0] * tail, [0.0, 1.0, 3.0] + [-1000.0] * tail)
        return fit_general(identity(n), [1] * n, *lists, eps=0.0, shrinking=True, budget=100)

    def test_shrunk_away(self):
        fit = self.general(4)
        self.assertEqual((fit.n_iter_, fit.fit_status_), ([7], 0))
        self.assertTrue(math.isnan(fit.rho))
        with self.assertRaises(Refusal) as caught:
            self.general(5)
        self.assertEqual((caught.exception.number, caught.exception.index), (11, 0))

    def test_most_samples(self):
        self.assertEqual(len(fit_c(identity(512), [1, 0] * 256, budget=1).home), 512)
        with self.assertRaises(Refusal) as caught:
            fit_c(identity(513), [1] * 513)
        self.assertEqual(caught.exception.number, 1)


class Refused(unittest.TestCase):
    def refused(self, number, index, fit, *given, **options):
        with self.assertRaises(Refusal) as caught:
            fit(*given, **options)
        self.assertEqual((caught.exception.number, caught.exception.index), (number, index))


class Refusals(Refused):
    def test_each(self):
        self.refused(1, 0, fit_c, [], [])
        self.refused(1, 0, fit_one_class, [], 0.5)
        self.refused(2, 0, fit_c, IDENTITY, [1, 0, 1])
        self.refused(2, 0, fit_c, b"\0" * 31, [1, 0])
        self.refused(3, 2, fit_c, [[1, 0], [math.inf, 1]], [1, 0])
        self.refused(3, 1, fit_one_class, [[1, 2.0 ** 1001], [0, 1]])
        self.refused(4, 2, fit_nu, identity(3), [1, 0, 2])
        self.refused(5, 1, fit_c, IDENTITY, [1, 0], 1.0, 0.0)
        self.refused(6, 1, fit_general, IDENTITY, [1, 0], [1, 1], [1, 2], [0, 0])
        self.refused(7, 0, fit_general, IDENTITY, [1, 0], [1, 1], [0, 0], [math.nan, 0])
        self.refused(8, 0, fit_c, IDENTITY, [1, 0], eps=-0.0)
        self.refused(9, 0, fit_nu, IDENTITY, [1, 0], 1.0000000000000002)
        self.refused(9, 0, fit_one_class, IDENTITY, 0.0)
        self.refused(10, 0, fit_c, IDENTITY, [1, 0], budget=0)
        self.refused(10, 0, fit_c, IDENTITY, [1, 0], budget=10_000_001)
        self.refused(10, 0, fit_c, IDENTITY, [1, 0], budget=-1)
        self.refused(10, 0, fit_c, IDENTITY, [1, 0], budget=1 << 70)
        self.refused(8, 0, fit_c, IDENTITY, [1, 0], eps=-1.0, budget=-1)
        self.refused(14, 0, fit_c, IDENTITY, [1, 0], floor=0)

    def test_columns_of_another_length(self):
        # As many numbers as there should be, but not in n columns of n.
        self.refused(2, 0, fit_c, [[1, 0, 0], [1]], [1, 0])
        self.refused(2, 0, fit_c, [[1, 0, 0, 1]], [1, 0])
        self.refused(2, 0, fit_nu, [1, [0, 0], 1], [1, 0])
        self.refused(2, 0, fit_one_class, [[1, 0, 0], [1]])
        self.refused(2, 0, fit_general, [[1, 0, 0], [1]], [1, 0], [1, 1], [0, 0], [0, 0])
        grid = memoryview(array("d", [1, 0, 0, 1])).cast("B")
        self.refused(2, 0, fit_c, grid.cast("d", (1, 4)), [1, 0])
        self.assertEqual(fit_c(grid.cast("d", (2, 2)), [1, 0]).home, [1.0, -1.0])
        self.refused(1, 0, fit_c, [[1, 0]], [])

    def test_numbers_of_samples(self):
        for n in (-1, 0, 513, 1 << 64, (1 << 64) + 2):
            self.refused(1, 0, fit_one_class, IDENTITY, n=n)
        self.refused(2, 0, fit_one_class, IDENTITY, n=3)
        told = "a list of columns is needed; a matrix that isn't in columns (bytes, a flat list) needs n beside it"
        for flat in (array("d", [1, 0, 0, 1]), bytes(32), [1, 0, 0, 1]):
            with self.assertRaises(ValueError) as caught:
                fit_one_class(flat)
            self.assertEqual(str(caught.exception), told)
        self.assertEqual(fit_one_class([1, 0, 0, 1], n=2).home, fit_one_class(IDENTITY).home)

    def test_no_numbers(self):
        for given, options, told in (
            ((IDENTITY, [1, 0], "x"), {}, "a double is needed, not 'x'"),
            ((IDENTITY, [1, 0]), {"eps": None}, "a double is needed, not None"),
            ((IDENTITY, [1, 0]), {"floor": "1e-10"}, "a double is needed, not '1e-10'"),
            ((IDENTITY, [1, 0]), {"budget": 1.5}, "'float' object cannot be interpreted as an integer"),
            ((IDENTITY, [1, 0]), {"budget": "9"}, "'str' object cannot be interpreted as an integer"),
            (([["1", "0"], ["0", "1"]], [1, 0]), {}, "must be real number, not str"),
        ):
            with self.assertRaises(TypeError) as caught:
                fit_c(*given, **options)
            self.assertEqual(str(caught.exception), told)
        with self.assertRaises(TypeError):
            fit_one_class(IDENTITY, n=2.0)
        with self.assertRaises(TypeError) as caught:
            fit_c(IDENTITY, [1, 0]).decision_function([1.0, 0.0])
        self.assertIn("a list of rows is needed", str(caught.exception))

    def test_words_are_the_headers(self):
        part = read("include/altuliscia.h").split("ALTULISCIA_ACCEPTED = 0,")[1].split("};")[0]
        found = {}
        for comment, number in re.findall(r"/\*(.*?)\*/\s*ALTULISCIA_\w+ = (\d+)", part, re.DOTALL):
            found[int(number)] = " ".join(word for word in comment.split() if word != "*")
        self.assertEqual(found, altuliscia._SENTENCES)
        self.assertEqual(str(Refusal(5, 1)), f"refusal 5 at index 1: {found[5]}")
        self.assertEqual(str(Refusal(11, 0)), f"refusal 11: {found[11]}")
        self.assertEqual(str(Refusal(13, 0)), f"refusal 13: {found[13]}")

    def test_labels(self):
        for label in (-1, 2, 256, 1 << 2000, 0.5, math.nan):
            self.refused(4, 1, fit_c, identity(3), [1, label, 0])
        for label in (0.5, math.nan, math.inf):
            self.refused(4, 1, fit_c, IDENTITY, [1, label])
        self.refused(4, 0, fit_nu, IDENTITY, [-1, -1])
        # In the library's order: what it looks at first is told first.
        self.refused(3, 0, fit_c, [[math.nan, 0], [0, 1]], [1, 0.5])
        self.assertEqual(fit_c(IDENTITY, [1.0, 0.0]).home, [1.0, -1.0])

    def test_places_of_the_shared_object(self):
        words = " ".join(altuliscia.__doc__.split())
        places = "else beside this file, else in the repository's target, else in target/native, else in target/staticlib."
        self.assertIn("ALTULISCIA_SO gives, " + places, words)
        with mock.patch.dict(os.environ), mock.patch("os.path.exists", return_value=False), mock.patch("altuliscia._loaded", None):
            os.environ.pop("ALTULISCIA_SO", None)
            with self.assertRaises(OSError) as caught:
                fit_c(IDENTITY, [1, 0])
        here = os.path.dirname(os.path.abspath(altuliscia.__file__))
        found = re.search(r"\((.*)\)", str(caught.exception)).group(1).split(", ")
        found = [os.path.relpath(path, here) for path in found]
        places = ("", "../../target/", "../../target/native/", "../../target/staticlib/")
        self.assertEqual(found, [place + "libaltuliscia.so" for place in places])

    def test_no_shared_object(self):
        kept, altuliscia._loaded = altuliscia._loaded, None
        known = os.environ.get("ALTULISCIA_SO")
        try:
            os.environ["ALTULISCIA_SO"] = "/nowhere/libaltuliscia.so"
            with self.assertRaises(OSError):
                fit_c(IDENTITY, [1, 0])
        finally:
            altuliscia._loaded = kept
            del os.environ["ALTULISCIA_SO"]
            if known is not None:
                os.environ["ALTULISCIA_SO"] = known


class Lists(unittest.TestCase):
    def test_columns_come_first(self):
        columns = [[2.0, 0.25], [0.5, 1.0]]
        flat = array("d", [2.0, 0.25, 0.5, 1.0])
        fits = [fit_c(given, [1, 0]) for given in (columns, flat, flat.tobytes(), memoryview(flat))]
        for fit in fits[1:]:
            self.assertEqual((fit.home, fit.rho, fit.obj), (fits[0].home, fits[0].rho, fits[0].obj))
        self.assertEqual(fit_c([flat[:2], flat[2:]], [1, 0]).home, fits[0].home)
        one = fit_one_class(flat.tobytes(), 0.5, n=2)
        self.assertEqual(one.home, fit_one_class(columns, 0.5).home)

    def test_nu(self):
        fit = fit_nu(IDENTITY, [1, 0], 1.0)
        self.assertIsNotNone(fit.r)
        self.assertEqual(fit.home, [1.0 / fit.r, -1.0 / fit.r])

    def test_decisions(self):
        fit = fit_c(IDENTITY, [1, 0])
        self.assertEqual(fit.decision_function([[1.0, 0.0], [0.0, 1.0]]), [1.0, -1.0])
        with self.assertRaises(ValueError):
            fit.decision_function([[1.0]])


class Problem:
    """A drawn problem: the matrix in columns, and the lists of the general fit."""

    def __init__(self, draw, n):
        self.matrix = [[draw.choice((-3.0, -0.5, 0.0, 1.0, 2.5)) for _ in range(n)] for _ in range(n)]
        self.labels = [draw.randint(0, 1) for _ in range(n)]
        self.ceilings = [draw.choice((0.5, 1.0, 3.0)) for _ in range(n)]
        self.alphas = [draw.choice((0.0, 0.25, ceiling)) for ceiling in self.ceilings]
        self.linear = [draw.choice((-1.0, 0.0, 2.0)) for _ in range(n)]

    def lists(self):
        return [self.labels, self.ceilings, self.alphas, self.linear]

    def fits(self, **options):
        """The fits that take retired samples, with the rules that they have."""
        fits = [fit_c(self.matrix, self.labels, 2.0, 0.75, budget=50, **options)]
        return fits + [fit_general(self.matrix, *self.lists(), nu_rule=nu, budget=50, **options) for nu in (False, True)]

    def without(self, gone):
        """The problem with those samples taken out."""
        part = Problem.__new__(Problem)
        left = [k for k in range(len(self.labels)) if k not in gone]
        part.matrix = [[self.matrix[c][r] for r in left] for c in left]
        part.labels, part.ceilings, part.alphas, part.linear = ([given[k] for k in left] for given in self.lists())
        return part

    def with_others(self, gone, draw):
        """The problem with other values at those samples' places."""
        n, other = len(self.labels), Problem(draw, len(self.labels))
        other.matrix = [[2.0 ** 1000 if {c, r} & gone else self.matrix[c][r] for r in range(n)] for c in range(n)]
        for mine, others in zip(self.lists(), other.lists()):
            others[:] = [others[k] if k in gone else mine[k] for k in range(n)]
        return other


def put_back(fit, n, gone):
    """The answer of a problem without those samples as that of all n."""
    def spread(weights):
        left = iter(weights)
        return [0.0 if k in gone else next(left) for k in range(n)]
    numbers = (fit.rho, fit.r, fit.obj, fit.n_iter_[0], fit.fit_status_)
    return Fit(spread(fit.home), spread(fit.crate_reading), *numbers, sorted(gone), fit.support_count)


class Retired(Refused):
    def drawn(self):
        """Problems, each with some samples that are retired; never all of them."""
        draw = random.Random(5)
        for _ in range(150):
            n = draw.randint(2, 8)
            yield draw, Problem(draw, n), set(draw.sample(range(n), draw.randint(1, n - 1)))

    def test_nobody(self):
        problem = Problem(random.Random(1), 6)
        for shrinking in (False, True):
            plain = [told(fit) for fit in problem.fits(shrinking=shrinking)]
            for nobody in (None, [], (), set(), iter([]), array("q")):
                self.assertEqual([told(fit) for fit in problem.fits(shrinking=shrinking, retired=nobody)], plain)
        with mock.patch("altuliscia._called", wraps=altuliscia._called) as called:
            problem.fits(retired=[])
        names = [call[0][0] for call in called.call_args_list]
        self.assertEqual(names, ["altuliscia_c_tuned", "altuliscia_general_tuned", "altuliscia_general_tuned"])
        for fit in (*problem.fits(), fit_nu(IDENTITY, [1, 0]), fit_one_class(IDENTITY)):
            self.assertEqual(fit.retired_, [])

    def test_no_byte_set(self):
        # What the library does by itself where nobody is retired.
        for _, problem, _ in self.drawn():
            n = len(problem.labels)
            lent = (bits(sum(problem.matrix, [])), bytes(problem.labels), *map(bits, problem.lists()[1:]))
            for nu in (False, True):
                given = (altuliscia._flag(nu),)
                answer = altuliscia._called("altuliscia_retired", n, (*lent, bytes(n)), given, 1e-7, False, 50, (b"",))
                plain = fit_general(problem.matrix, *problem.lists(), nu_rule=nu, budget=50)
                self.assertEqual(told(Fit(*answer)), told(plain))

    def test_put_back(self):
        for _, problem, gone in self.drawn():
            fits = problem.fits(retired=gone)
            parts = [put_back(fit, len(problem.labels), gone) for fit in problem.without(gone).fits()]
            self.assertEqual([told(fit) for fit in fits], [told(fit) for fit in parts])

    def test_no_say(self):
        for draw, problem, gone in self.drawn():
            others = problem.with_others(gone, draw).fits(retired=gone)
            self.assertEqual([told(fit) for fit in problem.fits(retired=gone)], [told(fit) for fit in others])

    def test_signs_of_zeros(self):
        # Of one label nothing is trained: a negative sample has -0, a retired one +0.
        fit = fit_c(identity(3), [0, 0, 0], retired=[1])
        self.assertEqual((bits(fit.home), bits(fit.crate_reading)), (bits([-0.0, 0.0, -0.0]),) * 2)

    def test_everybody(self):
        for fit in (fit_c(IDENTITY, [1, 0], retired=[0, 1]), *Problem(random.Random(2), 3).fits(retired=[2, 0, 1])):
            self.assertEqual((bits(fit.home), bits(fit.crate_reading)), (bytes(8 * len(fit.home)),) * 2)
            self.assertTrue(math.isnan(fit.rho) and math.isnan(fit.decision_function([[1] * len(fit.home)])[0]))
            self.assertEqual((fit.obj, fit.n_iter_, fit.fit_status_, fit.support_, fit.support_count), (0.0, [0], 0, [], 0))

    def test_forms(self):
        class Whole:
            """A whole number as numpy has them."""
            def __index__(self):
                return 2

        plain = told(fit_c(identity(3), [1, 0, 1], retired=[0, 2]))
        for form in ([2, 0], (0, 2), {0, 2}, range(0, 3, 2), iter([2, 0]), array("B", [2, 0]), [Whole(), 0], {2: "", 0: ""}):
            self.assertEqual(told(fit_c(identity(3), [1, 0, 1], retired=form)), plain)
        self.assertEqual(plain[-1], [0, 2])

    def test_decisions(self):
        fit = fit_c([[1, 5, 0], [5, 5, 5], [0, 5, 1]], [1, 0, 0], retired=[1])
        for value in (0.0, 7, math.inf, -math.inf, math.nan, 1e308, None):
            self.assertEqual(fit.decision_function([[0.75, value, 0.25], [0.0, value, 1.0]]), [0.5, -1.0])
        # A sample that isn't retired has its say, with weight 0 too.
        idle = fit_c(identity(3), [1, 0, 1], retired=[0])
        idle.home = [0.0, 0.0, 1.0]
        self.assertTrue(math.isnan(idle.decision_function([[1, math.inf, 1]])[0]))
        for row in ([0.75, 0.25], [1.0] * 4):
            with self.assertRaises(ValueError):
                fit.decision_function([row])

    def test_the_page(self):
        lists = [shown(name) for name in ("matrix of 3", "labels of 3", "ceilings", "alphas", "linear")]

        def call(marks, shrinking):
            given = (altuliscia._flag(False),)
            return Fit(*altuliscia._called("altuliscia_retired", 3, (*lists, marks), given, 0.001, shrinking, 2, (b"",)))

        fit = call(shown("retired"), False)
        self.assertEqual((bits(fit.home), bits(fit.crate_reading)), (shown("both lists"),) * 2)
        numbers = (0, 0, fit.rho, 0, 0.0, fit.obj, fit.n_iter_[0], fit.fit_status_, fit.support_count)
        self.assertEqual(altuliscia._ANSWER.pack(*numbers), shown("answer"))
        self.assertEqual(told(fit_general(*lists, eps=0.001, budget=2, retired=[0]))[:-1], told(fit)[:-1])
        self.refused(12, 0, call, b"\2\0\0", False)
        self.refused(13, 0, call, shown("retired"), True)


class RetiredRefused(Refused):
    def refused_as_ever(self, number, index, *given, **options):
        """By fit_c with and without a retired sample."""
        for retired in (None, [1]):
            self.refused(number, index, fit_c, *given, **options, retired=retired)

    def test_as_fit_c_does(self):
        spoilt = {"eps": -1.0, "budget": 0}
        self.refused_as_ever(1, 0, identity(513), [1] * 513, 0.0, **spoilt)
        self.refused_as_ever(2, 0, IDENTITY, [1, 0, 1], 0.0, **spoilt)
        self.refused_as_ever(2, 0, [[1, 0, 0], [1]], [1, 0])
        self.refused_as_ever(3, 2, [[1, 0], [math.inf, 1]], [1, 0.5], 0.0, **spoilt)
        self.refused_as_ever(4, 1, IDENTITY, [1, 0.5], 0.0, **spoilt)
        self.refused_as_ever(5, 0, IDENTITY, [1, 0], 0.0, math.nan, **spoilt)
        # Nobody has that label, or only who is retired.
        self.refused_as_ever(5, 0, IDENTITY, [0, 0], math.inf, 1.0, **spoilt)
        self.refused_as_ever(5, 1, IDENTITY, [1, 1], 1.0, 2.0 ** 1001, **spoilt)
        self.refused_as_ever(5, 1, IDENTITY, [1, 0], 1.0, -1.0)
        self.refused_as_ever(8, 0, IDENTITY, [1, 0], **spoilt)
        for budget in (0, -1, 10_000_001, 1 << 70):
            self.refused_as_ever(10, 0, IDENTITY, [1, 0], budget=budget)

    def test_general(self):
        def refused(number, index, matrix, *lists, **options):
            self.refused(number, index, fit_general, matrix, *lists, retired=[1], **options)

        refused(2, 0, IDENTITY, [1, 0], [1, 1], [0], [0, 0])
        refused(3, 3, [[1, 0], [0, math.nan]], [1, 0], [1, 1], [0, 0], [0, 0])
        refused(4, 1, IDENTITY, [1, 0.5], [1, 1], [0, 0], [0, 0])
        refused(5, 1, IDENTITY, [1, 0], [1, 0], [0, 0], [0, 0])
        refused(6, 1, IDENTITY, [1, 0], [1, 1], [0, 2], [0, 0])
        refused(7, 1, IDENTITY, [1, 0], [1, 1], [0, 0], [0, math.inf])

    def test_shrinking(self):
        lists = ([1, 0], [1, 1], [0, 0], [-1, -1])
        for fit, given in ((fit_c, lists[:1]), (fit_general, lists)):
            self.refused(13, 0, fit, IDENTITY, *given, shrinking=True, retired=[1])
            self.refused(10, 0, fit, IDENTITY, *given, shrinking=True, budget=0, retired=[1])
            self.refused(8, 0, fit, IDENTITY, *given, shrinking=True, eps=math.nan, retired=[1])

    def test_bytes_and_tuning(self):
        # What these functions never lend.
        def call(marks, late, shrinking=False):
            lists = (bits([1, 0, 0, 1]), b"\1\0", bits([1, 1]), bits([0, 0]), bits([-1, -1]), marks)
            given = (altuliscia._flag(False),)
            return altuliscia._called("altuliscia_retired", 2, lists, given, 1e-7, shrinking, 9, late)

        self.assertEqual(call(b"\0\0", (b"",))[0], [1.0, 1.0])
        for marks, late in ((b"\0", b""), (b"\0" * 3, b""), (b"", b""), *((b"\0\0", bytes(length)) for length in (1, 7, 9, 16))):
            self.refused(2, 0, call, marks, (late,))
        for late in (b"", bits([1e-10])):
            for marks in (b"\2\0", b"\1\2", b"\xff\1"):
                self.refused(12, 0, call, marks, (late,), True)
            self.refused(13, 0, call, b"\0\0", (late,), True)
        for marks in (b"\0\0", b"\2\0"):
            for shrinking in (False, True):
                self.refused(14, 0, call, marks, (bytes(8),), shrinking)

    def bad(self, kind, text, retired, labels=(1, 0)):
        for fit, lists in ((fit_c, ()), (fit_general, ([1, 1], [0, 0], [-1, -1]))):
            with self.assertRaises(kind) as caught:
                fit(IDENTITY, labels, *lists, retired=retired() if callable(retired) else retired)
            self.assertEqual((type(caught.exception), str(caught.exception)), (kind, text))

    def test_no_numbers(self):
        class bool_:
            """As numpy's: a number by its looks."""
            def __index__(self):
                return 1

            def __repr__(self):
                return "True_"

        for given in (True, False, 1, 1.0, b"\0\1", bytearray(2), object):
            self.bad(TypeError, f"a list of sample numbers is wanted as retired, not {given!r:.40}", lambda: given)
        for given in (True, False, bool_(), "1", 1.0, math.nan, None, [1]):
            self.bad(TypeError, f"sample numbers are wanted as retired, not {given!r}", [1, given])
        self.bad(TypeError, "sample numbers are wanted as retired, not False", [False, True])
        self.bad(TypeError, "sample numbers are wanted as retired, not '1'", "1")

    def test_wrong_numbers(self):
        for number in (2, -1, 512, 1 << 64):
            self.bad(ValueError, f"sample {number} can't be retired: n is 2, and samples are counted from 0", [0, number])
        self.bad(ValueError, "sample 1 is retired twice: sample numbers are wanted, each once, not a mask", [1, 0, 1])

    def test_before_the_library(self):
        # What can't be right is told first, whatever else would be refused.
        self.bad(ValueError, "sample 0 can't be retired: n is 0, and samples are counted from 0", [0], labels=())
        self.bad(ValueError, "sample 600 can't be retired: n is 513, and samples are counted from 0", [600], labels=[1] * 513)
        self.bad(ValueError, "sample 1 can't be retired: n is 1, and samples are counted from 0", [1], labels=[2])
        for given in ({"budget": 1.5}, {"eps": "x"}, {"cneg": None}):
            with self.assertRaises(TypeError):
                fit_c([[math.nan]], [1], retired=[0], **given)

    def test_who_takes_it(self):
        for fit, given in ((fit_nu, (IDENTITY, [1, 0])), (fit_one_class, (IDENTITY,))):
            with self.assertRaises(TypeError):
                fit(*given, retired=[1])


class Floor(Refused):
    # Two samples whose curvature is 1 + 0.5 - 2*0.75 = 0, and, for nu, which pairs samples of one label, two such pairs; then the same
    # two behind one that is retired.
    FLAT = [[1, 0.75], [0.75, 0.5]]
    TWO = [[1, 0.75, 0, 0], [0.75, 0.5, 0, 0], [0, 0, 1, 0.75], [0, 0, 0.75, 0.5]]
    BEHIND = [[9, 9, 9], [9, 1, 0.75], [9, 0.75, 0.5]]
    KINDS = (
        (fit_c, (FLAT, [1, 0], 8, 8), {}),
        (fit_nu, (TWO, [1, 1, 0, 0], 0.25), {}),
        (fit_one_class, (FLAT, 0.25), {}),
        (fit_general, (FLAT, [1, 0], [8] * 2, [0] * 2, [-1] * 2), {}),
        (fit_c, (BEHIND, [1, 1, 0], 8, 8), {"retired": [0]}),
        (fit_general, (BEHIND, [1, 1, 0], [8] * 3, [0] * 3, [-1] * 3), {"retired": [0]}),
    )
    # Of two passes by a floor of 1. Those of nu are divided by r.
    WEIGHTS = ([4, -4], None, [0.25, 0.25], [4, 4], [0, 4, -4], [0, 4, 4])

    def test_steps(self):
        for (fit, given, options), weights in zip(self.KINDS, self.WEIGHTS):
            usual, other, least = (fit(*given, budget=2, floor=floor, **options) for floor in (1e-10, 1, 5e-324))
            self.assertEqual((other.n_iter_, other.fit_status_), ([2], 1))
            self.assertEqual(told(usual), told(fit(*given, budget=2, **options)))
            self.assertEqual(told(least), told(usual))
            if weights is None:
                weights = [weight / other.r for weight in (0.5, 0, -0.25, -0.25)]
            self.assertEqual(other.home, weights)
            self.assertNotEqual(usual.home, weights)

    def test_bad(self):
        for fit, given, options in self.KINDS:
            for floor in (0, -0.0, -1, 1.0000000000000002, math.inf, -math.inf, math.nan):
                self.refused(14, 0, fit, *given, floor=floor, **options)
                self.refused(14, 0, fit, *given, floor=floor, shrinking=True, **options)
                self.refused(10, 0, fit, *given, floor=floor, budget=0, **options)
                self.refused(8, 0, fit, *given, floor=floor, eps=-1.0, budget=0, **options)
            for floor in (None, "x", [1e-10]):
                with self.assertRaises(TypeError):
                    fit(*given, floor=floor, **options)
        self.refused(9, 0, fit_one_class, self.FLAT, 0.0, floor=0.0)

    def kinds(self, problem):
        """Each function without a tuning, with the lists of a drawn problem and what it takes beside them."""
        kernel, labels, nu = bits(sum(problem.matrix, [])), bytes(problem.labels), altuliscia._bits(0.3)
        yield "altuliscia_c", (kernel, labels), (altuliscia._bits(2.0), altuliscia._bits(0.75))
        yield "altuliscia_nu", (kernel, labels), (nu,)
        yield "altuliscia_one_class", (kernel,), (nu,)
        for rule in (False, True):
            yield "altuliscia_general", (kernel, labels, *map(bits, problem.lists()[1:])), (altuliscia._flag(rule),)

    def answered(self, name, problem, lent, given, shrinking, *late):
        """What it answers, or the number and index of its refusal."""
        try:
            return told(Fit(*altuliscia._called(name, len(problem.labels), lent, given, 1e-3, shrinking, 50, late)))
        except Refusal as refusal:
            return refusal.number, refusal.index

    def test_without_a_tuning(self):
        draw, answers = random.Random(3), set()
        for _ in range(100):
            problem = Problem(draw, draw.randint(1, 8))
            for name, *rest in self.kinds(problem):
                rest = (problem, *rest, draw.randint(0, 1))
                plain = self.answered(name, *rest)
                answers.add(str(plain))
                for tuning, expected in (
                    (b"", plain), (bits([1e-10]), plain), (bits([1e-10, 0.0]), plain), (bytes(8), (14, 0)), (bytes(16), (14, 0)),
                    *((bytes(length), (2, 0)) for length in (1, 7, 9, 15, 17, 24)),
                ):
                    self.assertEqual(self.answered(name + "_tuned", *rest, tuning), expected)
        self.assertGreater(len(answers), 200)


class Pairs(unittest.TestCase):
    def number(self, name):
        """The double that docs/BYTES.md shows by its bits, in the line of that name."""
        found = re.search(rf"^    {name:<14}0x([0-9a-f]{{16}})", read("docs/BYTES.md"), re.MULTILINE)
        return array("d", int(found.group(1), 16).to_bytes(8, "little"))[0]

    def test_the_page(self):
        i, j = (Before(*(self.number(f"{name}_{k}") for name in Before._fields)) for k in "ij")
        left = find_pair(i, j, self.number("entry"), shown("agree") != b"\0")
        self.assertEqual((bits(left), left), (shown("pair"), (0.5, 1.0)))

    def test_forms(self):
        sample = Before(0.0, 1.0, -1.0, 1.0)
        for form in (tuple(sample), list(sample), [0, 1, -1, True], array("d", sample)):
            self.assertEqual(find_pair(form, sample, 0, 0), (1.0, 1.0))
        # Where the labels agree, what the one loses the other gains.
        self.assertEqual(find_pair((0.5, 1, 1, 1), (0.25, 1, 0, 1), 0.0, "agree"), (0.0, 0.75))
        left = find_pair((0.5, 1, math.nan, 1), (0.25, 1, 0, 1), 0.0, True)
        self.assertTrue(all(math.isnan(weight) for weight in left))

    def test_no_numbers(self):
        with self.assertRaises(TypeError) as caught:
            find_pair((0.0, 1.0, "x", 1.0), (0, 1, -1, 1), 0.0, False)
        self.assertEqual(str(caught.exception), "a double is needed, not 'x'")
        with self.assertRaises(ValueError):
            find_pair((0.0, 1.0, -1.0), (0, 1, -1, 1), 0.0, False)


def counted(languages, coefficients, values, rhos):
    """The rule once more: winner, votes and ties."""
    found = [0] * languages
    for (first, second), weights, kernel, rho in zip(pairs(languages), coefficients, values, rhos):
        total = 0.0
        for weight, value in zip(weights, kernel):
            total += weight * value
        found[(first if total - rho >= 0 else second) - 1] += 1
    ties = [k for k, count in enumerate(found, 1) if count == max(found)]
    return ties[0], found, ties


class Voted(unittest.TestCase):
    """Votes of several languages."""

    def drawn(self):
        """Panels of drawn numbers, of 2 to 12 languages: how many, coefficients, values and rhos."""
        draw = random.Random(7)
        strange = (math.nan, math.inf, -math.inf, -0.0, 5e-324, 1e308)

        def number():
            return draw.choice(strange) if draw.random() < 0.05 else draw.choice((0.0, draw.randint(-400, 400) / 32))

        for _ in range(300):
            languages = draw.randint(2, 12)
            counts = [draw.randint(0, 6) for _ in pairs(languages)]
            lists = [[[number() for _ in range(count)] for count in counts] for _ in range(2)]
            yield (languages, *lists, [number() for _ in counts])

    def test_drawn(self):
        ties = 0
        for panel in self.drawn():
            found = votes(*panel)
            self.assertEqual(tuple(found), counted(*panel))
            self.assertEqual(sum(found.votes), len(pairs(panel[0])))
            ties += len(found.ties) > 1
        self.assertGreater(ties, 30)

    def test_pairs(self):
        self.assertEqual(pairs(4), [(1, 2), (1, 3), (1, 4), (2, 3), (2, 4), (3, 4)])
        self.assertEqual([len(pairs(k)) for k in (0, 1, 2, 12)], [0, 0, 1, 66])

    def test_the_page(self):
        part = read("docs/BYTES.md").split("\n## The votes of pairs\n")[1].split("\n## ")[0]

        def shown(name):
            found = re.search(rf"^    {name:<21}(.*)$", part, re.MULTILINE).group(1)
            return bytes(int(word, 16) for word in found.split())

        lists = [array("d", shown(name)) for name in ("coefficients", "values")]
        counts = array("Q", shown("coefficient_counts"))
        starts = [sum(counts[:k]) for k in range(len(counts) + 1)]
        coefficients, values = ([given[a:b] for a, b in zip(starts, starts[1:])] for given in lists)
        found = votes(3, coefficients, values, shown("rhos"))
        self.assertEqual((found.votes, found.winner), (list(array("Q", shown("votes"))), array("Q", shown("answer"))[2]))
        values[1] = [0.5, 0.5]
        with self.assertRaises(NoVotes) as caught:
            votes(3, coefficients, values, shown("rhos"))
        number, index = caught.exception.number, caught.exception.index
        self.assertEqual(altuliscia._ELECTION.pack(number, index, 0), shown("refused"))

    def test_edges(self):
        below = 0.49999999999999994
        for weight, value, rho, winner in (
            (1, 0.5, 0.5, 1), (1, below, 0.5, 2), (0, 1, 0, 1), (-0.0, 1, 0, 1), (1, 1, math.nan, 2), (math.nan, 1, 0, 2),
            (0, math.inf, -1, 2), (1, math.inf, math.inf, 2), (1, math.inf, 0, 1), (1, 1, -math.inf, 1),
        ):
            self.assertEqual(votes(2, [[weight]], [[value]], [rho]).winner, winner)
        # The order of a sum.
        ones = [[1, 1, 1]]
        self.assertEqual(votes(2, [[1e16, 1, -1e16]], ones, [0.5]).winner, 2)
        self.assertEqual(votes(2, [[1e16, -1e16, 1]], ones, [0.5]).winner, 1)
        # Each of three beats the next.
        self.assertEqual(votes(3, [[]] * 3, [[]] * 3, [-1, 1, -1]), Votes(1, [1, 1, 1], [1, 2, 3]))

    def test_rows(self):
        for languages, coefficients, values, rhos in self.drawn():
            # Every pair's values in one row, turned round, with one more before them.
            row, samples = [math.nan], []
            for given in reversed(values):
                samples.append(range(len(row), len(row) + len(given)))
                row += given
            samples.reverse()
            found = votes_of_rows(languages, coefficients, samples, rhos, [row, tuple(row), array("d", row), array("d", row).tobytes()])
            self.assertEqual(found, [votes(languages, coefficients, values, rhos)] * 4)
        self.assertEqual(votes_of_rows(2, [[1]], [[0]], [0], []), [])
        self.assertEqual(votes_of_rows(2, [[]], [[]], [-1], [[], [1]]), [Votes(1, [1, 0], [1])] * 2)

    def test_captions(self):
        """Three languages, of which one caption each was trained on."""
        fits = [fit_c(IDENTITY, [1, 0]) for _ in pairs(3)]
        homes, rhos = [fit.home for fit in fits], [fit.rho for fit in fits]
        rows = [[1, 0, 0], [0, 1, 0], [0, 0, 1], [0.5, 0.5, 0.5]]
        samples = [[first - 1, second - 1] for first, second in pairs(3)]
        found = votes_of_rows(3, homes, samples, rhos, rows)
        self.assertEqual([one.winner for one in found], [1, 2, 3, 1])
        self.assertEqual(found[3].votes, [2, 1, 0])

    def test_numpy(self):
        try:
            import numpy
        except ImportError:
            print("NOT RUN: votes on arrays of numpy; they need numpy (Debian's package python3-numpy)", file=sys.stderr)
            return
        homes, rhos = numpy.array([[1.0, -1.0]] * 3), numpy.zeros(3)
        rows = numpy.array([[1, 0, 0], [0, 1, 0], [0, 0, 1], [0.5, 0.5, 0.5]])
        samples = numpy.array([[0, 1], [0, 2], [1, 2]])
        expected = votes_of_rows(3, homes.tolist(), samples.tolist(), rhos.tolist(), rows.tolist())
        self.assertEqual(votes_of_rows(numpy.int64(3), homes, samples, rhos, rows), expected)
        # Rows that don't stand one after the other.
        self.assertEqual(votes_of_rows(3, homes, samples, rhos, numpy.asfortranarray(rows)), expected)
        self.assertEqual(votes_of_rows(3, homes, samples, rhos, numpy.repeat(rows, 2, axis=1)[:, ::2]), expected)
        self.assertEqual(votes(3, homes, rows[1][samples], rhos), expected[1])
        # The rows are exact in single precision.
        self.assertEqual(votes_of_rows(3, homes, samples, rhos, rows.astype("float32")), expected)

    def refused(self, number, index, told, *given, call=votes):
        with self.assertRaises(NoVotes) as caught:
            call(*given)
        self.assertEqual((caught.exception.number, caught.exception.index), (number, index))
        self.assertEqual(str(caught.exception), f"refusal {number}: {told}")

    def test_refused(self):
        three = ([[1], [1, 2], []], [[1], [1, 2], []], [0, 0, 0])
        for languages in (-1, 0, 1, 13, 1 << 64, (1 << 64) + 3):
            self.refused(1, 0, "The number of languages is below 2 or above 12: lend 2 to 12 languages.", languages, *three)
        pair = "Pair {}, counted from 0, has {} coefficients and {} kernel values: lend as many of both."
        self.refused(2, 1, pair.format(1, 2, 1), 3, three[0], [[1], [1], [1]], three[2])
        self.refused(2, 0, pair.format(0, 1, 0), 3, three[0], [[], [1], [1]], three[2])
        length = "A list has the wrong length: lend coefficients, as many kernel values and a rho for each pair."
        self.refused(2, 0, length, 3, three[0][:2], three[1], three[2])
        self.refused(2, 0, length, 3, three[0], three[1][1:], three[2])
        self.refused(2, 0, length, 2, *three)
        self.refused(2, 0, length, 3, *three[:2], [0, 0])
        self.refused(2, 0, length, 3, *three[:2], [0] * 4)
        self.refused(2, 0, length, 3, [b"\0" * 9, [], []], [[1], [], []], three[2])
        # Of rows: as many samples as coefficients.
        rows = ([[0], [0], []], three[2], [[1, 2]])
        self.refused(2, 1, pair.format(1, 2, 1), 3, three[0], *rows, call=votes_of_rows)
        self.assertIsInstance(NoVotes(1, 0), ValueError)
        self.assertIn("newer than this file", str(NoVotes(3, 0)))

    def test_no_numbers(self):
        good = ([[1]], [[0]], [0])
        for rows, kind, told in (
            ([1.0], TypeError, "a list of rows is needed, each with the kernel values of one caption"),
            ([["x"]], TypeError, "must be real number, not str"),
            ([[]], ValueError, "a row has 0 kernel values, but a pair has sample 0"),
        ):
            with self.assertRaises(kind) as caught:
                votes_of_rows(2, *good, rows)
            self.assertEqual(str(caught.exception), told)
        with self.assertRaises(ValueError) as caught:
            votes_of_rows(2, [[1]], [[-1]], [0], [[1]])
        self.assertEqual(str(caught.exception), "there is no sample -1: they are counted from 0")
        for given in (("2", [[1]], [[1]], [0]), (2.0, [[1]], [[1]], [0]), (2, [["x"]], [[1]], [0]), (2, [[1]], [[1]], ["x"]), (2, [1], [1], [0])):
            with self.assertRaises(TypeError):
                votes(*given)
        with self.assertRaises(TypeError):
            votes_of_rows(2, [[1]], [[0.0]], [0], [[1]])

    def test_constants_are_the_headers(self):
        header = read("include/altuliscia.h")
        for name in ("FEWEST_LANGUAGES", "MOST_LANGUAGES"):
            self.assertIn(f"#define ALTULISCIA_{name} {getattr(altuliscia, name)}\n", header)


def figures(name):
    """Kernel matrix and labels of the captions to train on, values and labels of those to sort."""
    lines = [line.split() for line in read(f"captions/{name}.txt").splitlines() if not line.startswith("#")]
    n = int(lines[2][1])
    rows = [[int(word) for word in line] for line in lines[4:]]
    train, held = rows[:n], rows[n:]
    own = [row[-1] for row in train]

    def value(product, a, b):
        return product / math.sqrt(a * b)

    matrix = [[value(train[max(c, r)][1 + min(c, r)], own[c], own[r]) for r in range(n)] for c in range(n)]
    values = [[value(p, row[1], o) for p, o in zip(row[2:], own)] for row in held]
    return matrix, [row[0] for row in train], values, [row[0] for row in held]


class Captions(unittest.TestCase):
    """The captions that ship with the repository, sorted as `./run` says."""

    def test_as_told(self):
        for name, count in (("cs-sk", 8), ("da-sv", 7)):
            matrix, labels, values, truth = figures(name)
            pattern = r"^(1e-\d)  +(\d+)  (on|off) +(\d+) +(\d+) \(.*?\) +(\d+) \("
            told = re.findall(pattern, read(f"captions/{name}.expected"), re.MULTILINE)
            self.assertEqual(len(told), count)
            for eps, c, shrinking, steps, home, other in told:
                fit = fit_c(matrix, labels, float(c), float(c), eps=float(eps), shrinking=shrinking == "on")
                self.assertEqual(fit.n_iter_, [int(steps)])
                for weights, right in ((fit.home, home), (fit.crate_reading, other)):
                    fit.home = weights
                    decisions = fit.decision_function(values)
                    self.assertEqual(sum((d >= 0) == (t == 1) for d, t in zip(decisions, truth)), int(right))

    def test_retired(self):
        matrix, labels, values, _ = figures("cs-sk")
        gone = {0, 19, 40, 63}
        left = [k for k in range(len(labels)) if k not in gone]
        part = fit_c([[matrix[c][r] for r in left] for c in left], [labels[k] for k in left], 10.0, 10.0, eps=1e-3)
        fit = fit_c(matrix, labels, 10.0, 10.0, eps=1e-3, retired=[63, 19, 0, 40])
        self.assertEqual(told(fit), told(put_back(part, len(labels), gone)))
        spoilt = [[math.inf if k in gone else value for k, value in enumerate(row)] for row in values]
        self.assertEqual(fit.decision_function(spoilt), part.decision_function([[row[k] for k in left] for row in values]))

    def test_refused_as_told(self):
        matrix, labels, _, _ = figures("da-sv")
        with self.assertRaises(Refusal) as caught:
            fit_c(matrix, labels, shrinking=True)
        self.assertIn(str(caught.exception), read("captions/da-sv.expected"))


if __name__ == "__main__":
    unittest.main()
