"""Tests of what people expect who come from scikit-learn, numpy and Python itself: names, labels, numbers of any type, pickles, Ctrl-C."""
import copy
import ctypes
import math
import multiprocessing
import os
import pickle
import random
import signal
import subprocess
import sys
import time
import unittest
from array import array
from decimal import Decimal
from fractions import Fraction
from functools import partial
from unittest import mock

import altuliscia
from altuliscia import Fit, NoVotes, Refusal, find_pair, fit_c, fit_general, fit_nu, fit_one_class, votes, votes_of_rows
from altuliscia_languages import fit_languages
from altuliscia_trail import Differs, trail_c
from test_altuliscia import IDENTITY, Problem, bits, identity, setUpModule, tearDownModule, told  # noqa: F401
from test_doubts import LINE, SIDES

try:
    import numpy
except ImportError:
    numpy = None
    print("NOT RUN: arrays of numpy in host/python; they need numpy (Debian's package python3-numpy)", file=sys.stderr)


def same(one, other):
    """Doubles, bit for bit; a NaN is a NaN."""
    return len(one) == len(other) and all(bits([x]) == bits([y]) or x != x and y != y for x, y in zip(one, other))


class Names(unittest.TestCase):
    def test_synonyms(self):
        for fit, given in (
            (fit_c, (LINE, SIDES)), (fit_nu, (LINE, SIDES, 0.3)), (fit_one_class, (LINE,)),
            (fit_general, (LINE, SIDES, [1] * 4, [0] * 4, [-1] * 4)),
        ):
            self.assertEqual(told(fit(*given, tol=1e-2)), told(fit(*given, eps=1e-2)))
            self.assertEqual(told(fit(*given, max_iter=2)), told(fit(*given, budget=2)))
            self.assertEqual(told(fit(*given, max_iter=-1)), told(fit(*given)))
            for options, names in (({"eps": 1e-7, "tol": 1e-7}, "eps and tol"), ({"budget": 10_000_000, "max_iter": 10_000_000}, "budget and max_iter"),
                                   ({"budget": 5, "max_iter": -1}, "budget and max_iter")):
                with self.assertRaises(TypeError) as caught:
                    fit(*given, **options)
                self.assertEqual(str(caught.exception), f"{names} are two names of one thing: give one of them")
            for options in ({"max_iter": 1.5}, {"max_iter": "9"}, {"tol": "x"}, {"C": "1"}):
                with self.assertRaises(TypeError):
                    fit(*given, **options)
        self.assertEqual(told(fit_nu(LINE, SIDES, nu=0.3)), told(fit_nu(LINE, SIDES, 0.3)))

    def test_costs(self):
        self.assertEqual(told(fit_c(LINE, SIDES, C=0.25)), told(fit_c(LINE, SIDES, 0.25, 0.25)))
        self.assertEqual(told(fit_c(LINE, SIDES, C=0.25, retired=[0])), told(fit_c(LINE, SIDES, 0.25, 0.25, retired=[0])))
        for given, options, name in (((1.0,), {}, "cpos"), ((1, 1), {}, "cpos"), ((), {"cneg": 1.0}, "cneg")):
            with self.assertRaises(TypeError) as caught:
                fit_c(LINE, SIDES, *given, C=10.0, **options)
            self.assertEqual(str(caught.exception), f"{name} and C are two names of one thing: give one of them")

    def test_costs_by_label(self):
        for labels, low, high in ((["sk", "sk", "cs", "cs"], "cs", "sk"), (SIDES, 0, 1), ([3, 3, -3, -3], -3, 3), ([True, True, False, False], 0, 1)):
            for options in ({}, {"retired": [0]}, {"eps": 1e-3}):
                plain = told(fit_c(LINE, labels, 2.0, 0.5, **options))
                for costs in ({low: 0.5, high: 2.0}, {high: 2, low: Fraction(1, 2)}):
                    self.assertEqual(told(fit_c(LINE, labels, costs=costs, **options)), plain)
            self.assertNotEqual(plain, told(fit_c(LINE, labels, costs={low: 2.0, high: 0.5})))
            self.assertEqual(told(fit_c(LINE, labels, costs={low: 0.25, high: 0.25})), told(fit_c(LINE, labels, C=0.25)))
        self.assertEqual(trail_c(LINE, SIDES, sample=2, costs={0: 0.5, 1: 2.0})[:-2], trail_c(LINE, SIDES, 2.0, 0.5, sample=2)[:-2])

    def test_costs_not_taken(self):
        labels, both = ["sk", "sk", "cs", "cs"], {"cs": 10.0, "sk": 1.0}
        shown = "costs has a cost for each label, as {'cs': 10.0, 'sk': 1.0}, not "
        needed = "costs needs the labels 'cs' and 'sk' and no other, not "
        for given, options, kind, words in (
            ((1.0, 1.0), {}, TypeError, "costs is given in place of cpos, cneg and C"),
            ((), {"cneg": 1.0}, TypeError, "costs is given in place of cpos, cneg and C"),
            ((), {"C": 1.0}, TypeError, "costs is given in place of cpos, cneg and C"),
            ((), {"costs": [10.0, 1.0]}, TypeError, shown + "[10.0, 1.0]"),
            ((), {"costs": 10.0}, TypeError, shown + "10.0"),
            ((), {"costs": "cs"}, TypeError, shown + "'cs'"),
            ((), {"costs": {"cs": 10.0}}, ValueError, needed + "'cs'"),
            ((), {"costs": {}}, ValueError, needed + "none"),
            ((), {"costs": {"cs": 10.0, "pl": 1.0}}, ValueError, needed + "'cs', 'pl'"),
            ((), {"costs": {**both, "pl": 1.0}}, ValueError, needed + "'cs', 'sk', 'pl'"),
            ((), {"costs": {0: 10.0, 1: 1.0}}, ValueError, needed + "0, 1"),
            ((), {"costs": {"cs": "10", "sk": 1.0}}, TypeError, "a double is needed, not '10'"),
            ((), {"costs": {"cs": None, "sk": 1.0}}, TypeError, "a double is needed, not None"),
        ):
            for train in (fit_c, partial(trail_c, sample=0)):
                with self.assertRaises(kind) as caught:
                    train(LINE, labels, *given, **{"costs": both, **options})
                self.assertEqual((type(caught.exception), str(caught.exception)), (kind, words))
        for costs, label in (({"cs": -1, "sk": 1.0}, "cs"), ({"cs": 1.0, "sk": -1}, "sk")):
            for options in ({}, {"retired": [0]}):
                with self.assertRaises(Refusal) as caught:
                    fit_c(LINE, labels, costs=costs, **options)
                self.assertEqual(caught.exception.sentence, f"costs[{label!r}] is -1: a ceiling is above 0 and at most 2^1000")
        # Three labels are refused as such, whatever their costs.
        with self.assertRaises(Refusal) as caught:
            fit_c(LINE, [0, 1, 7, 7], costs={0: 1.0, 1: 1.0, 7: 2.0})
        self.assertEqual((caught.exception.number, caught.exception.index), (4, 2))

    def test_defaults(self):
        # What isn't given is what it always was.
        self.assertEqual(told(fit_c(LINE, SIDES)), told(fit_c(LINE, SIDES, 1.0, 1.0, eps=1e-7, budget=10_000_000)))


class Labels(unittest.TestCase):
    def test_two_values(self):
        plain = told(fit_c(LINE, SIDES))
        for low, high, classes in (
            (-1, 1, [-1, 1]), (1, 2, [1, 2]), ("cs", "sk", ["cs", "sk"]), (-1.0, 1.0, [-1, 1]), (0, 7, [0, 7]), (-7, 0, [-7, 0]),
            (b"a", b"b", [b"a", b"b"]), (2, 1 << 2000, [2, 1 << 2000]), (Fraction(2), Decimal(3), [2, 3]),
        ):
            labels = [high if mark else low for mark in SIDES]
            fit = fit_c(LINE, labels)
            self.assertEqual((told(fit), fit.classes_), (plain, classes))
            self.assertEqual(fit.predict(LINE), [high if d >= 0 else low for d in fit.decision_function(LINE)])
            self.assertEqual(fit.predict(LINE), labels)
            self.assertEqual(fit.score(LINE, labels), 1.0)
            self.assertEqual(told(fit_nu(LINE, labels, 0.3)), told(fit_nu(LINE, SIDES, 0.3)))
            self.assertEqual(told(fit_c(LINE, labels, retired=[0])), told(fit_c(LINE, SIDES, retired=[0])))

    def test_as_ever(self):
        for one, zero in ((1, 0), (True, False), (1.0, 0.0), (Fraction(1), -0.0)):
            fit = fit_c(LINE, [one if mark else zero for mark in SIDES])
            self.assertEqual((told(fit), fit.classes_), (told(fit_c(LINE, SIDES)), [0, 1]))
            self.assertEqual([type(c) for c in fit.classes_], [bool if one is True else int] * 2)
        # Of one label, too.
        self.assertEqual((fit_c(IDENTITY, [0, 0]).classes_, fit_c(IDENTITY, [1, 1]).classes_), ([0, 1],) * 2)
        self.assertEqual(fit_c(IDENTITY, iter([1, 0])).home, [1.0, -1.0])
        self.assertEqual((fit_one_class(IDENTITY).classes_, fit_one_class(IDENTITY).predict([[9, 9], [-9, -9]])), ([-1, 1], [1, -1]))

    def test_bad(self):
        for labels, kind, text in (
            ([1, "1"], TypeError, "labels are whole numbers or strings, not '1' and 1"),
            ([1, None], TypeError, "labels are whole numbers or strings, not 1 and None"),
            ([None, None], TypeError, "labels are whole numbers or strings, not None"),
            ([[1], [0]], TypeError, "labels are wanted one by one: numbers or strings, no lists"),
            (["a", "a"], ValueError, "two different labels are needed, and all are the same: 'a'"),
        ):
            with self.assertRaises(kind) as caught:
                fit_c(IDENTITY, labels)
            self.assertEqual((type(caught.exception), str(caught.exception)), (kind, text))
        with self.assertRaises(ValueError) as caught:
            fit_c(LINE, ["a", "b", "d", "c"])
        self.assertIn("here are 4 (altuliscia_languages sorts up to 12): 'a', 'b', 'c', ..", str(caught.exception))

    def test_score(self):
        fit = fit_c(LINE, SIDES)
        self.assertEqual(fit.score(LINE, [1, 1, 0, 1]), 0.75)
        for labels, text in (
            ([1, 1, -1, -1], "the label -1 is none of [0, 1], which were trained"), ([1, 1], "4 rows and 2 labels: as many are needed, and some"),
        ):
            with self.assertRaises(ValueError) as caught:
                fit.score(LINE, labels)
            self.assertEqual(str(caught.exception), text)
        with self.assertRaises(ValueError):
            fit.score([], [])

    def test_edges(self):
        fit = Fit([1.0], [1.0], 0.0, None, 0.0, 1, 0, classes=["n", "p"])
        self.assertEqual(fit.predict([[0.0], [-0.0], [5e-324], [-5e-324], [math.nan]]), ["p", "p", "p", "n", "n"])


class General(unittest.TestCase):
    """The weights of the general fit have no sign; what decides has."""

    def test_as_c(self):
        draw = random.Random(8)
        for _ in range(60):
            n = draw.randint(2, 8)
            problem = Problem(draw, n)
            retired = draw.choice((None, [draw.randrange(n)]))
            rows = [[draw.uniform(-3, 3) for _ in range(n)] for _ in range(3)]
            c = fit_c(problem.matrix, problem.labels, C=2.0, budget=50, retired=retired)
            general = fit_general(problem.matrix, problem.labels, [2] * n, [0] * n, [-1] * n, budget=50, retired=retired)
            self.assertTrue(same(general.decision_function(rows), c.decision_function(rows)))
            self.assertEqual((general.dual_coef_, general.predict(rows)), (c.dual_coef_, c.predict(rows)))
            self.assertTrue(same(general.coefficients, c.home) and same(c.coefficients, c.home))
            self.assertTrue(same(general.home, [abs(weight) for weight in c.home]))
        self.assertEqual(fit_general(IDENTITY, [1, 0], [1] * 2, [0] * 2, [-1] * 2).home, [1.0, 1.0])

    def test_votes(self):
        fit = fit_general(IDENTITY, [0, 1], [1] * 2, [0] * 2, [-1] * 2)
        self.assertEqual(votes(2, [fit.coefficients], [[1, 0]], [fit.rho]).winner, 2)


class Numbers(unittest.TestCase):
    def test_kinds(self):
        plain = told(fit_c(LINE, SIDES))
        flat = [int(x) for x in sum(LINE, [])]
        for code in "fhHiIlLqQ":
            self.assertEqual(told(fit_c(array(code, flat), SIDES)), plain)
        for kind in (Fraction, Decimal, int):
            self.assertEqual(told(fit_c([[kind(int(x)) for x in column] for column in LINE], SIDES)), plain)
            fit = fit_c(LINE, SIDES)
            self.assertEqual(fit.decision_function([[kind(int(x)) for x in LINE[0]]]), fit.decision_function(LINE[:1]))
        self.assertEqual(told(fit_c([[True, False], [False, True]], [1, 0])), told(fit_c(IDENTITY, [1, 0])))
        self.assertEqual(fit_general(IDENTITY, [1, 0], array("f", [1, 1]), [0, 0], [-1, -1]).home, [1.0, 1.0])

    def test_bad(self):
        class Sparse:
            def toarray(self):
                raise AssertionError

        for given, text in (
            (Sparse(), "numbers are needed one by one, not a sparse matrix: give its toarray()"),
            ([[1, "0"], [0, 1]], "must be real number, not str"),
            ([[1, 1j], [0, 1]], "complex"),
        ):
            with self.assertRaises(TypeError) as caught:
                fit_c(given, [1, 0])
            self.assertIn(text, str(caught.exception))
        with self.assertRaises(TypeError):
            fit_c(IDENTITY, [1, 0]).decision_function([["1", "0"]])


@unittest.skipUnless(numpy, "no numpy")
class Arrays(unittest.TestCase):
    def test_kernels(self):
        plain = told(fit_c(LINE, SIDES))
        for kind in ("float64", "float32", "float16", "longdouble", ">f8", "int8", "uint8", "int16", "int64", "uint64", "object"):
            kernel = numpy.array(LINE).astype(kind)
            for form in (kernel, numpy.asfortranarray(kernel), numpy.repeat(kernel, 2, axis=1)[:, ::2], list(kernel)):
                self.assertEqual(told(fit_c(form, SIDES)), plain, kind)
        self.assertEqual(told(fit_c(numpy.identity(2, dtype=bool), [1, 0])), told(fit_c(IDENTITY, [1, 0])))
        for flag in (numpy.False_, numpy.bool_(0), numpy.int64(0)):
            self.assertEqual(told(fit_c(LINE, SIDES, shrinking=flag, travelling=flag)), told(fit_c(LINE, SIDES)))
        self.assertEqual(told(fit_one_class(numpy.array(LINE, dtype="float32"))), told(fit_one_class(LINE)))
        for kind in ("complex128", "U3", "datetime64[s]"):
            with self.assertRaises(TypeError) as caught:
                fit_c(numpy.zeros((2, 2), dtype=kind), [1, 0])
            self.assertIn("real numbers are needed, not an array of ", str(caught.exception))
        with self.assertRaises(Refusal) as caught:
            fit_c(numpy.zeros((64, 5)), [1] * 64)
        self.assertIn("matrix is 64x5, needs 64x64", str(caught.exception))

    def test_labels(self):
        plain = told(fit_c(LINE, SIDES))
        for low, high in ((0, 1), (-1, 1), (3, 4)):
            for kind in ("int64", "uint8", "float32", "str", "object") if low >= 0 else ("int8", "float64", "str", "object"):
                labels = numpy.array([high if mark else low for mark in SIDES]).astype(kind)
                positive = labels[SIDES.index(1)]
                fit = fit_c(LINE, labels)
                self.assertEqual(told(fit), plain if fit.classes_[1] == positive else told(fit_c(LINE, [1 - mark for mark in SIDES])))
                self.assertNotIn("numpy", type(fit.classes_[0]).__module__)
                self.assertEqual(fit.score(LINE, labels), 1.0)
        self.assertEqual(fit_c(LINE, numpy.array(SIDES, dtype=bool)).classes_, [False, True])
        # A column of labels was taken, and is.
        self.assertEqual(told(fit_c(LINE, numpy.array(SIDES)[:, None])), plain)
        with self.assertRaises(TypeError):
            fit_c(LINE, numpy.array([SIDES, SIDES]).T)
        with self.assertRaises(Refusal) as caught:
            fit_c(IDENTITY, numpy.array([[1], [0.5]]))
        self.assertIn("the label of sample 1 is 0.5: ", str(caught.exception))

    def test_decisions(self):
        """To the bit, whatever the numbers."""
        draw = random.Random(4)
        strange = (math.nan, math.inf, -math.inf, -0.0, 5e-324, 1e308)
        for _ in range(60):
            n, m = draw.randint(1, 12), draw.choice((0, 1, 5, 513))
            weights = [draw.choice((0.0, -0.0, draw.uniform(-1, 1), draw.uniform(-1, 1) * 1e16)) for _ in range(n)]
            retired = sorted(draw.sample(range(n), draw.randint(0, n - 1))) if draw.random() < 0.3 else []
            rows = [[draw.choice(strange) if draw.random() < 0.01 else draw.uniform(-9, 9) for _ in range(n)] for _ in range(m)]
            fit = Fit(weights, weights, draw.uniform(-1, 1), None, 0.0, 1, 0, retired)
            plain = [loop(fit, row) for row in rows]
            self.assertTrue(same(fit.decision_function(rows), plain))
            grid = numpy.array(rows).reshape(m, n)
            for form in (grid, numpy.asfortranarray(grid), numpy.repeat(grid, 2, axis=0)[::2], grid.astype("object")):
                found = fit.decision_function(form)
                self.assertIs(type(found), list)
                self.assertTrue(same(found, plain))

    def test_other_types(self):
        fit = fit_c(LINE, SIDES)
        grid = numpy.array([[1, 2, 3, 4], [5, 0, 7, 255]])
        plain = fit.decision_function(grid.tolist())
        for kind in ("float32", "int64", "uint8", "int32", "object"):
            self.assertEqual(fit.decision_function(grid.astype(kind)), plain)
        self.assertEqual(fit.decision_function(list(grid.astype("float32"))), plain)
        # Lists of numpy's numbers, which may round where they are multiplied.
        for kind in (numpy.float32, numpy.float16, numpy.int8, numpy.longdouble):
            found = fit.decision_function([[kind(value) for value in (1, 2, 3, 4)], [1, 2.5, kind(3), 4]])
            self.assertEqual(found, fit.decision_function([[1, 2, 3, 4], [1, 2.5, 3, 4]]))
            self.assertEqual([type(one) for one in found], [float] * 2)
        for bad, kind in ((grid[0], TypeError), (grid[None], TypeError), (grid[:, :3], ValueError), (grid.astype(complex), TypeError)):
            with self.assertRaises(kind):
                fit.decision_function(bad)

    def test_rows_of_votes(self):
        homes, samples, rhos = [[1.0, -1.0]], [[0, 1]], [0.5]
        plain = votes_of_rows(2, homes, samples, rhos, [[1, 0] + [0] * 14, [0, 1] + [0] * 14])
        for kind in ("uint8", "int64", "float32", "bool"):
            rows = numpy.zeros((2, 16), dtype=kind)
            rows[0, 0] = rows[1, 1] = 1
            self.assertEqual(votes_of_rows(2, homes, samples, rhos, rows), plain)
        self.assertEqual([one.winner for one in plain], [1, 2])


def loop(fit, row):
    """The decision once more."""
    total = 0.0
    for k, (weight, value) in enumerate(zip(fit.home, row)):
        if k not in fit.retired_:
            total += weight * value
    return total - fit.rho


def trained(cost):
    """For a worker process: a fit, or a refusal."""
    return fit_c(LINE, SIDES, C=cost)


def counted(languages):
    return votes(languages, [[1]], [[1]], [0])


@unittest.skipUnless(numpy, "no numpy")
class Masked(unittest.TestCase):
    def test_refused(self):
        """numpy would hand over the numbers under the mask."""
        fit = fit_c(IDENTITY, [1, 0])
        kernel, labels = numpy.ma.masked_equal(IDENTITY, 7), numpy.ma.array([1, 0], mask=[0, 1])
        for call in (
            lambda: fit_c(kernel, [1, 0]),
            lambda: fit_one_class(kernel),
            lambda: fit_c(IDENTITY, labels),
            lambda: fit_languages(kernel, ["a", "b"]),
            lambda: fit_languages(IDENTITY, labels),
            lambda: fit.predict(kernel),
            lambda: fit_languages(IDENTITY, [1, 0]).votes(kernel),
        ):
            with self.assertRaises(TypeError) as caught:
                call()
            self.assertIn("not a masked array: give its filled(..)", str(caught.exception))
        self.assertEqual(told(fit_c(kernel.filled(0), labels.data)), told(fit))


class Pickles(unittest.TestCase):
    def test_back(self):
        for one in (Refusal(3, 7), Refusal(2, 0, "matrix is 64x5, needs 64x64"), NoVotes(1, 0), NoVotes(2, 1, "told"), Differs(4, None), Differs(4, 2)):
            for back in (pickle.loads(pickle.dumps(one)), copy.copy(one), copy.deepcopy(one)):
                self.assertEqual((type(back), str(back), vars(back)), (type(one), str(one), vars(one)))
        found = counted(2)
        self.assertEqual(pickle.loads(pickle.dumps(found)), found)
        general = fit_general(LINE, SIDES, [1, 2, 1, 1], [0] * 4, [-1] * 4, retired=[0])
        for fit in (fit_c(LINE, SIDES, retired=[1]), fit_nu(LINE, SIDES, 0.3), fit_one_class(LINE), general, fit_c(LINE, ["b", "b", "a", "a"])):
            for protocol in range(2, pickle.HIGHEST_PROTOCOL + 1):
                back = pickle.loads(pickle.dumps(fit, protocol))
                self.assertEqual((vars(back), repr(back)), (vars(fit), repr(fit)))
                self.assertEqual(back.decision_function(LINE), fit.decision_function(LINE))
                self.assertEqual(back.predict(LINE), fit.predict(LINE))

    def test_of_an_older_version(self):
        fit = fit_c(LINE, SIDES)
        kept = vars(fit).copy()
        for name in ("classes_", "signs", "one_ceiling", "above_ceiling", "below_zero"):
            del kept[name]
        back = Fit.__new__(Fit)
        vars(back).update(kept)
        self.assertEqual((back.predict(LINE), repr(back), back.releasable), (fit.predict(LINE), repr(fit), True))
        self.assertEqual((back.above_ceiling, back.below_zero), ([], []))

    def test_workers(self):
        """Refusals come back from worker processes; a Pool hangs for ever where they can't be unpickled."""
        with multiprocessing.Pool(2) as pool:
            self.assertEqual([told(fit) for fit in pool.map_async(trained, [1.0, 0.5]).get(60)], [told(trained(1.0)), told(trained(0.5))])
            with self.assertRaises(Refusal) as caught:
                pool.apply_async(trained, (0.0,)).get(60)
            self.assertEqual((caught.exception.number, caught.exception.index), (5, 0))
            self.assertEqual(caught.exception.sentence, "C is 0.0: a ceiling is above 0 and at most 2^1000")
            with self.assertRaises(NoVotes) as caught:
                pool.apply_async(counted, (13,)).get(60)
            self.assertEqual(caught.exception.number, 1)


class Alone(unittest.TestCase):
    def test_nothing_else_is_loaded(self):
        """numpy is used where the caller has it, and never loaded."""
        here = os.path.dirname(os.path.abspath(altuliscia.__file__))
        code = (f"import sys; sys.path.insert(0, {here!r}); import altuliscia, altuliscia_languages, altuliscia_trail; "
                "altuliscia.fit_c([[1, 0], [0, 1]], [1, 0]).predict([[1, 0]]); print('numpy' in sys.modules)")
        self.assertEqual(subprocess.check_output([sys.executable, "-B", "-c", code], universal_newlines=True), "False\n")


SLOW = """
import sys, warnings
sys.path.insert(0, {here!r})
import altuliscia
warnings.simplefilter("ignore", altuliscia.Doubtful)
n = 300
kernel = [[float(x * y % 17) for y in range(n)] for x in range(n)]
labels = [x % 2 for x in range(n)]
altuliscia.fit_c(kernel, labels, C=1e9, eps=0.0, budget=10)
print("begun", flush=True)
try:
    fit = altuliscia.fit_c(kernel, labels, C=1e9, eps=0.0)
    print("ended", fit.n_iter_, flush=True)
except KeyboardInterrupt:
    # Whatever comes next works while the call goes on.
    print("interrupted", altuliscia.fit_c([[1, 0], [0, 1]], [1, 0]).home, flush=True)
"""


class Interrupted(unittest.TestCase):
    def test_ctrl_c(self):
        here = os.path.dirname(os.path.abspath(altuliscia.__file__))
        child = subprocess.Popen([sys.executable, "-B", "-c", SLOW.format(here=here)], stdout=subprocess.PIPE, universal_newlines=True)
        try:
            self.assertEqual(child.stdout.readline(), "begun\n")
            time.sleep(0.5)
            began = time.monotonic()
            child.send_signal(signal.SIGINT)
            self.assertEqual(child.stdout.readline(), "interrupted [1.0, -1.0]\n")
            self.assertLess(time.monotonic() - began, 1.0)
            self.assertEqual(child.wait(10), 0)
        finally:
            child.kill()
            child.stdout.close()
            child.wait()

    def test_which_calls(self):
        def ways(*given, **options):
            """How the library was called, and the answer."""
            with mock.patch("altuliscia._direct", wraps=altuliscia._direct) as direct, mock.patch("altuliscia._aside", wraps=altuliscia._aside) as aside:
                fit = fit_c(*given, **options)
            return (direct.call_count, aside.call_count), told(fit)

        short = identity(100), [1, 0] * 50
        draw = random.Random(6)
        points = [[draw.gauss(0, 1) for _ in range(2)] for _ in range(100)]
        long = [[sum(map(lambda x, y: x * y, one, other)) for other in points] for one in points], [draw.randint(0, 1) for _ in range(100)]
        self.assertGreater(fit_c(*long, C=1e3).n_iter_[0], altuliscia._soon(100))
        few = {"budget": 100_000}
        for given, options, calls in (
            (short, few, (1, 0)), (short, {}, (1, 0)), (long, {"C": 1e3, **few}, (1, 0)), (long, {"C": 1e3}, (1, 1)),
            (short, {"shrinking": True}, (0, 1)), (long, {"retired": [0]}, (1, 1)), (short, {"retired": [0], **few}, (2, 0)),
        ):
            found, answer = ways(*given, **options)
            self.assertEqual(found, calls)
            # The answer is that of a single call.
            with mock.patch("altuliscia._long", return_value=False):
                self.assertEqual(answer, told(fit_c(*given, **options)))

    def test_a_run_that_ended(self):
        """One that ends at the threshold is the same with any budget above its steps: so a smaller budget may be tried first."""
        draw, ended = random.Random(12), 0
        for _ in range(150):
            problem = Problem(draw, draw.randint(2, 8))
            options = {"floor": draw.choice((1e-10, 1e-3)), "eps": draw.choice((1e-7, 1e-2))}
            for fit, given in (
                (fit_c, (problem.matrix, problem.labels, 2.0, 0.75)), (fit_nu, (problem.matrix, problem.labels, 0.4)), (fit_one_class, (problem.matrix,)),
                *((partial(fit_general, nu_rule=rule), (problem.matrix, *problem.lists())) for rule in (False, True)),
            ):
                long = fit(*given, budget=2000, **options)
                if long.fit_status_ == 0:
                    self.assertEqual(told(fit(*given, budget=long.n_iter_[0] + 1, **options)), told(long))
                    ended += long.n_iter_[0] > 1
        self.assertGreater(ended, 250)

    def test_limits(self):
        given = ((2, 1000), (512, 1000), (2, 10_000_000), (512, 10_000_000), (100, 10_000_000), (512, 10_000_001), (512, 0))
        self.assertEqual([altuliscia._long(*one) for one in given], [False, False, True, True, True, False, False])
        self.assertEqual([altuliscia._soon(n) > 100 for n in (1, 512)], [True, True])

    def test_other_threads(self):
        # Signals don't reach another thread, so nothing waits aside there.
        with mock.patch("threading.current_thread"):
            self.assertFalse(altuliscia._long(512, 10_000_000))
        with mock.patch("threading.stack_size", return_value=1 << 16):
            self.assertFalse(altuliscia._long(512, 10_000_000))

    def test_trouble_aside(self):
        with self.assertRaises(ZeroDivisionError):
            altuliscia._aside(lambda x: 1 // x, (0,))


class Old(unittest.TestCase):
    """A shared object that is older than this file."""

    def older(self, number):
        class Library:
            _name = "libold.so"
            altuliscia_version = staticmethod(lambda: number)

        return mock.patch("altuliscia._loaded", Library())

    def test_told(self):
        for number, call, words in (
            (10204, lambda: fit_c(IDENTITY, [1, 0]), "libold.so is version 1.2.4: altuliscia_c_tuned needs 1.3.0 or a later 1.x"),
            (10200, lambda: fit_general(IDENTITY, [1, 0], [1, 1], [0, 0], [0, 0], retired=[0]), "altuliscia_retired needs 1.3.0 or a later 1.x"),
            (10400, lambda: votes(2, [[1]], [[1]], [0]), "libold.so is version 1.4.0: altuliscia_votes needs 1.5.0 or a later 1.x"),
            (10100, lambda: find_pair([0] * 4, [0] * 4, 0, True), "altuliscia_pair needs 1.2.0 or a later 1.x"),
        ):
            with self.older(number), self.assertRaises(OSError) as caught:
                call()
            self.assertIn(words, str(caught.exception))

    def test_another_library(self):
        with mock.patch("altuliscia._loaded", ctypes.CDLL(None)), self.assertRaises(OSError) as caught:
            fit_c(IDENTITY, [1, 0])
        self.assertIn("has no version: altuliscia_c_tuned needs 1.3.0", str(caught.exception))


if __name__ == "__main__":
    unittest.main()
