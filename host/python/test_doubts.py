"""Tests that nothing wrong goes by in silence: what isn't to be released, what warns and names the caller's line, the words of refusals."""
import inspect
import math
import random
import unittest
import warnings
from array import array

from altuliscia import (AboveCeiling, Asymmetric, BelowZero, Doubtful, Fit, InfeasibleNu, NotFinite, NotReleasable, OneCost, Refusal, Shrinking, fit_c,
                        fit_general, fit_nu, fit_one_class)
from altuliscia_languages import fit_languages
from altuliscia_taken import unlike
from altuliscia_trail import trail_c, trail_general, trail_nu, trail_one_class
from test_altuliscia import IDENTITY, identity

# Four samples on a line, which take some steps.
LINE = [[x * y + 1.0 for y in (1, 2, 3, 5)] for x in (1, 2, 3, 5)]
SIDES = [1, 1, 0, 0]
# What is said of an r by which nothing is to be divided.
TURNED = ", below 0: a weight divided by it has the other class's sign"
TINY = ", so near 0 that a weight of 1 divided by it is infinite"


def warned(call):
    """What a call answers, and its warnings."""
    with warnings.catch_warnings(record=True) as told:
        warnings.simplefilter("always")
        answer = call()
    return answer, told


class Doubts(unittest.TestCase):
    def warns(self, kinds, call):
        """The answer, where exactly these kinds of warnings are told, all with the line of this file that called."""
        answer, told = warned(call)
        self.assertEqual([one.category for one in told], kinds)
        place = inspect.getsourcefile(call), inspect.getsourcelines(call)[1]
        for one in told:
            self.assertEqual((one.filename, one.lineno), place, one.message)
        return answer, [str(one.message) for one in told]


class Released(Doubts):
    def test_good(self):
        for call in (
            lambda: fit_c(LINE, SIDES),
            lambda: fit_nu(LINE, SIDES, 0.3),
            lambda: fit_one_class(LINE),
            lambda: fit_general(LINE, SIDES, [1] * 4, [0] * 4, [-1] * 4),
            lambda: fit_c(LINE, SIDES, retired=[1]),
            lambda: fit_c(LINE, SIDES, 2.0, 0.5),
        ):
            fit, _ = self.warns([], call)
            self.assertTrue(fit.releasable)
            self.assertIsNone(fit.unfit)

    def test_bad(self):
        for call, why in (
            (lambda: fit_c(LINE, SIDES, budget=1), "the budget ran out after 1 steps"),
            (lambda: fit_c(LINE, SIDES, max_iter=1), "the budget ran out after 1 steps"),
            (lambda: fit_general(LINE, SIDES, [1] * 4, [0] * 4, [-1] * 4, budget=1), "the budget ran out after 1 steps"),
            (lambda: fit_c(IDENTITY, [1, 1]), "rho is -inf; there is no support vector"),
            (lambda: fit_nu(IDENTITY, [1, 0], 1.0), "rho is nan; r is inf; there is no support vector"),
            (lambda: fit_c(IDENTITY, [1, 0], retired=[0, 1]), "rho is nan; there is no support vector"),
            (lambda: fit_c(IDENTITY, [1, 0], C=1e-15), "there is no support vector"),
        ):
            fit, told = self.warns([NotReleasable], call)
            self.assertEqual((fit.releasable, fit.unfit, told), (False, why, [f"this fit isn't to be released: {why}"]))

    def test_each_by_itself(self):
        good = {"rho": 0.5, "r": 2.0, "reason": 0, "support": 1}
        for change, why in (
            ({}, None), ({"reason": 1}, "the budget ran out after 7 steps"), ({"r": 0.0}, "r is 0.0"), ({"r": -0.0}, "r is -0.0"),
            ({"r": math.nan}, "r is nan"), ({"r": -math.inf}, "r is -inf"), ({"rho": math.nan}, "rho is nan"), ({"rho": math.inf}, "rho is inf"),
            ({"support": 0}, "there is no support vector"), ({"r": None}, None), ({"r": -2.0}, f"r is -2.0{TURNED}"),
            ({"r": -1e-309}, f"r is -1e-309{TURNED}"), ({"r": 1e-309}, f"r is 1e-309{TINY}"), ({"r": 1e308}, None),
            # The next double above 2^-1024 is the first that divides 1.
            ({"r": 2.0 ** -1024}, f"r is {2.0 ** -1024!r}{TINY}"), ({"r": 2.0 ** -1024 + 5e-324}, None),
            ({"reason": 2}, "the run ended for the reason 2, which is newer than this file"),
        ):
            one = {**good, **change}
            fit = Fit([1.0], [1.0], one["rho"], one["r"], 0.0, 7, one["reason"], (), one["support"])
            self.assertEqual((fit.unfit, fit.releasable), (why, why is None))

    def test_turned(self):
        # Points on a plane whose r is 0 but for a rounding: each weight has the other class's sign.
        points, labels = [(0.1, 0), (-0.3, 0.1), (-0.2, 0.1), (0.2, -0.3), (0, 0.1), (0.3, 0.1)], [0, 1, 0, 1, 0, 1]
        kernel = [[a * c + b * d for c, d in points] for a, b in points]
        fit, told = self.warns([NotReleasable], lambda: fit_nu(kernel, labels, 0.2, eps=1e-3))
        self.assertTrue(fit.r < 0.0 and fit.fit_status_ == 0 and math.isfinite(fit.rho))
        self.assertEqual((fit.unfit, fit.score(kernel, labels)), (f"r is {fit.r!r}{TURNED}", 0.0))
        self.assertEqual(told, [f"this fit isn't to be released: {fit.unfit}"])
        sorter, _ = self.warns([NotReleasable], lambda: fit_languages(kernel, labels, nu=0.2, eps=1e-3, languages=[1, 0]))
        self.assertEqual(sorter.unfit, f"1 and 0: {fit.unfit}")

    def test_too_small_a_scale(self):
        kernel = [[1e-309 * value for value in column] for column in ((3, 1, 0, 0), (1, 2, 0, 0), (0, 0, 2, 1), (0, 0, 1, 3))]
        fit, told = self.warns([NotReleasable], lambda: fit_nu(kernel, [1, 1, 0, 0], 0.3))
        self.assertEqual((fit.home[0], fit.unfit, fit.releasable), (math.inf, f"r is {fit.r!r}{TINY}", False))
        self.assertTrue(fit_nu([[1e3 * value for value in column] for column in kernel], [1, 1, 0, 0], 0.3).releasable)

    def test_shown(self):
        self.assertEqual(repr(fit_c(IDENTITY, [1, 0])), "<Fit of 2 samples: 2 support vectors, rho 0.0, 1 steps, releasable>")
        fit, _ = warned(lambda: fit_c(IDENTITY, [1, 0], 1, 0.5, budget=1))
        self.assertIn(", 1 steps, ceilings differ, not releasable: the budget ran out after 1 steps>", repr(fit))

    def test_kinds(self):
        for kind in (NotReleasable, InfeasibleNu, Asymmetric, OneCost, AboveCeiling, BelowZero, Shrinking, NotFinite):
            self.assertTrue(issubclass(kind, Doubtful) and issubclass(kind, UserWarning))
            self.assertEqual(kind.__module__, "altuliscia")
        with warnings.catch_warnings():
            warnings.simplefilter("error", Doubtful)
            with self.assertRaises(NotReleasable):
                fit_c(LINE, SIDES, budget=1)


class Told(Doubts):
    def test_nu(self):
        # Two of seven: nu*7/2 > 2 from above 4/7 on.
        line = [[x * y + 1.0 for y in range(7)] for x in range(7)]
        labels, most = [1, 1, 0, 0, 0, 0, 0], 4 / 7
        self.warns([], lambda: fit_nu(line, labels, 0.3))
        # Just feasible: both positive samples are at their ceiling, and r is infinite.
        self.warns([NotReleasable], lambda: fit_nu(line, labels, most))
        _, told = self.warns([InfeasibleNu, NotReleasable], lambda: fit_nu(line, labels, 0.6))
        self.assertEqual(told[0], "nu 0.6 is infeasible: the smaller class has 2 of 7 samples, so nu may be 0.571429 at the most")
        _, told = self.warns([InfeasibleNu, NotReleasable], lambda: fit_nu(IDENTITY, [0, 0], 0.01))
        self.assertIn("the smaller class has 0 of 2 samples, so nu may be 0 at the most", told[0])
        # A nu that is refused, or labels that are, are told by the refusal alone.
        for labels, nu, number in (([1, 1], 0.0, 9), ([1, 1], math.nan, 9), ([1, 1], 2.0, 9), ([1, 0.5], 1.0, 4)):
            with warnings.catch_warnings():
                warnings.simplefilter("error")
                with self.assertRaises(Refusal) as caught:
                    fit_nu(IDENTITY, labels, nu)
            self.assertEqual(caught.exception.number, number)

    def test_before_the_training(self):
        with warnings.catch_warnings():
            warnings.simplefilter("error")
            with self.assertRaises(InfeasibleNu):
                # Refused, were it trained.
                fit_nu([[math.nan, 0], [0, 1]], [1, 1])

    def test_asymmetric(self):
        def spoilt(by):
            line = [list(column) for column in LINE]
            line[2][1] += by
            return line

        # Sample 2's own value is 10, so 1e-5 is the most.
        for by in (0.0, 9e-6, -9e-6):
            self.warns([], lambda: fit_c(spoilt(by), SIDES))
        for by in (1.1e-5, -1.1e-5, 3.0):
            _, told = self.warns([Asymmetric], lambda: fit_c(spoilt(by), SIDES))
            mirror = f"column 1, row 2 is 7.0, and column 2, row 1 is {7.0 + by!r}"
            self.assertEqual(told, [f"the kernel isn't symmetric: {mirror}"])
        given = [1] * 4, [0] * 4, [-1] * 4
        self.warns([Asymmetric], lambda: fit_nu(spoilt(1e-3), SIDES, 0.3))
        self.warns([Asymmetric], lambda: fit_one_class(spoilt(1)))
        self.warns([Asymmetric], lambda: fit_general(spoilt(1), SIDES, *given))
        self.warns([Asymmetric], lambda: fit_c(array("d", sum(spoilt(1), [])), SIDES))
        # Retired samples have no say.
        for k in (1, 2):
            self.warns([], lambda: fit_c(spoilt(1), SIDES, retired=[k]))
        self.warns([Asymmetric], lambda: fit_c(spoilt(1), SIDES, retired=[3]))
        self.warns([], lambda: fit_c([[1, -0.0], [0.0, 1]], [1, 0]))

    def test_symmetry_drawn(self):
        """Beside the same question, asked of each pair."""
        draw, found = random.Random(3), 0
        for _ in range(1000):
            n = draw.randint(1, 6)
            matrix = [[float((c - r) ** 2 % 7) for r in range(n)] for c in range(n)]
            for _ in range(draw.randint(0, 3)):
                matrix[draw.randrange(n)][draw.randrange(n)] += draw.choice((1e-9, 1e-7, 1e-6, 2e-6, -1e-5, 1.0))
            gone = set(draw.sample(range(n), draw.randint(0, n)))
            stand = [k for k in range(n) if k not in gone]
            parted = {(c, r) for c in stand for r in stand if abs(matrix[c][r] - matrix[r][c]) > 1e-6 * max(
                abs(matrix[i][j]) for i in (c, r) for j in (c, r))}
            told = unlike(array("d", sum(matrix, [])).tobytes(), n, gone)
            self.assertTrue(told[:2] in parted and told[2:] == (matrix[told[0]][told[1]], matrix[told[1]][told[0]]) if parted else told is None)
            found += bool(parted)
        self.assertTrue(100 < found < 900, found)

    def test_one_cost(self):
        fit, told = self.warns([OneCost], lambda: fit_c(LINE, SIDES, 10.0))
        self.assertEqual(told, ["cpos is 10.0 and cneg isn't given, so it is 1.0: give both, or C=10.0 for both classes"])
        self.assertEqual(fit.home, fit_c(LINE, SIDES, 10.0, 1.0).home)
        _, told = self.warns([OneCost], lambda: fit_c(LINE, SIDES, cneg=3))
        self.assertEqual(told, ["cneg is 3 and cpos isn't given, so it is 1.0: give both, or C=3 for both classes"])
        for call in (
            lambda: fit_c(LINE, SIDES, 1.0),
            lambda: fit_c(LINE, SIDES, cneg=1),
            lambda: fit_c(LINE, SIDES, 10.0, 1.0),
            lambda: fit_c(LINE, SIDES, cpos=10.0, cneg=1.0),
            lambda: fit_c(LINE, SIDES, C=10.0),
        ):
            self.warns([], call)

    def test_shrinking(self):
        lists = [1] * 4, [0] * 4, [-1] * 4
        for call in (
            lambda: fit_c(LINE, SIDES, shrinking=True),
            lambda: fit_nu(LINE, SIDES, 0.3, shrinking=True),
            lambda: fit_one_class(LINE, shrinking=1),
            lambda: fit_general(LINE, SIDES, *lists, shrinking=True),
            lambda: fit_languages(LINE, SIDES, shrinking=True),
        ):
            fit, told = self.warns([Shrinking], call)
            self.assertTrue(fit.releasable)
            self.assertTrue(told[0].startswith("shrinking is on: "))
        self.warns([], lambda: fit_c(LINE, SIDES, shrinking=0))
        self.warns([Shrinking, NotReleasable], lambda: fit_c(LINE, SIDES, shrinking=True, budget=1))

    def test_trails(self):
        """What warns of a fit warns of its trail, once."""
        lists, spoilt = ([1] * 4, [0] * 4, [-1] * 4), [LINE[0], LINE[1], [4, 8, 10, 16], LINE[3]]
        blocks = [[2, 1, 0, 0], [1, 3, 0, 0], [0, 0, 2, 1], [0, 0, 1, 1]]
        for kinds, call in (
            ([], lambda: trail_c(LINE, SIDES, sample=1)),
            ([], lambda: trail_nu(LINE, SIDES, 0.3, sample=1)),
            ([], lambda: trail_one_class(LINE, sample=1)),
            ([], lambda: trail_general(LINE, SIDES, *lists, sample=1)),
            ([NotReleasable], lambda: trail_c(LINE, SIDES, sample=1, budget=1)),
            ([NotReleasable], lambda: trail_nu(IDENTITY, [1, 0], 1.0, sample=1)),
            ([NotReleasable], lambda: trail_one_class(blocks, 0.6, sample=1, budget=2)),
            ([NotReleasable], lambda: trail_general(LINE, SIDES, *lists, sample=1, max_iter=1)),
            ([InfeasibleNu, NotReleasable], lambda: trail_nu(LINE, [1, 0, 0, 0], 0.9, sample=1)),
            ([Asymmetric], lambda: trail_c(spoilt, SIDES, sample=1)),
            ([OneCost, NotReleasable], lambda: trail_c(LINE, SIDES, 10.0, sample=1, budget=1)),
        ):
            trail, told = self.warns(kinds, call)
            self.assertEqual(trail.fit.releasable, NotReleasable not in kinds)
            if not trail.fit.releasable:
                self.assertEqual(told[-1], f"this fit isn't to be released: {trail.fit.unfit}")
        matrix, given = [[3, 2, 0, 1], [2, 2, 2, 1], [0, 2, 2, 2], [1, 1, 2, 1]], ([0, 1, 1, 1], [2, 1, 1, 1], [2, 0, 1, 0], [-2, 0, -2, 0])
        self.warns([AboveCeiling, NotReleasable], lambda: trail_general(matrix, *given, sample=1, eps=0.0, budget=3))

    def test_flags(self):
        """A word is never taken for what it doesn't say."""
        lists = [1] * 4, [0] * 4, [-1] * 4
        for flag in ("no", "", "False", [0], [], None, 2, -1, 1.0, math.nan):
            for name, call in (
                ("shrinking", lambda: fit_c(LINE, SIDES, shrinking=flag)),
                ("shrinking", lambda: fit_nu(LINE, SIDES, 0.3, shrinking=flag)),
                ("shrinking", lambda: fit_one_class(LINE, shrinking=flag)),
                ("shrinking", lambda: fit_languages(LINE, SIDES, shrinking=flag)),
                ("travelling", lambda: fit_c(LINE, SIDES, travelling=flag)),
                ("travelling", lambda: fit_general(LINE, SIDES, *lists, travelling=flag)),
                ("travelling", lambda: fit_nu(LINE, SIDES, 0.3, travelling=flag)),
                ("travelling", lambda: fit_one_class(LINE, travelling=flag)),
                ("travelling", lambda: fit_languages(LINE, SIDES, travelling=flag)),
                ("travelling", lambda: trail_c(LINE, SIDES, sample=0, travelling=flag)),
                ("nu_rule", lambda: fit_general(LINE, SIDES, *lists, nu_rule=flag)),
                ("nu_rule", lambda: trail_general(LINE, SIDES, *lists, sample=0, nu_rule=flag)),
            ):
                with self.assertRaises(TypeError) as caught:
                    call()
                self.assertEqual(str(caught.exception), f"{name} is True or False, not {flag!r}")

    def test_not_finite(self):
        fit, sorter = fit_c(LINE, SIDES, retired=[1]), fit_languages(LINE, SIDES, retired=[1])
        good, spoilt = [1.0, 2.0, 3.0, 4.0], [[1.0, 2.0, bad, 4.0] for bad in (math.nan, math.inf, -math.inf)]
        # What stands at a retired sample's place has no say.
        for rows in ([], [good], [good, [1.0, math.nan, 3.0, 4.0]]):
            self.warns([], lambda: fit.predict(rows))
            self.warns([], lambda: sorter.predict(rows))
        for row in spoilt:
            for call, what in (
                (lambda: fit.predict([good, row]), "the decision on"),
                (lambda: fit.score([good, row], [1, 0]), "the decision on"),
                (lambda: sorter.predict([good, row]), "a kernel value of"),
                (lambda: sorter.votes([good, row]), "a kernel value of"),
            ):
                _, told = self.warns([NotFinite], call)
                self.assertEqual(told, [f"{what} row 1, counted from 0, isn't finite: the label of such a row says nothing"])
        _, told = self.warns([NotFinite], lambda: sorter.predict([good] + spoilt))
        self.assertTrue(told[0].startswith("a kernel value of row 1, and 2 more, counted from 0, isn't finite: "))
        # Decisions show it themselves.
        self.warns([], lambda: fit.decision_function(spoilt))

    def test_sums_not_finite(self):
        """Every kernel value is finite here."""
        fit, sorter = fit_c(LINE, SIDES, C=100), fit_languages(LINE, SIDES, C=100, retired=[])
        good, large = [1.0, 2.0, 3.0, 4.0], [1.7e308, 1.7e308, -1.7e308, -1.7e308]
        # A large value by itself is no doubt: each of these sums is finite.
        fine = [[0.0, 0.0, 1e307, 0.0], [1e307] * 4, [-1e306, 1e306, 1e306, -1e306]]
        self.assertTrue(all(map(math.isfinite, fit.decision_function([good] + fine))))
        self.assertFalse(math.isfinite(fit.decision_function([large])[0]))
        for call in (lambda: fit.predict([good] + fine), lambda: sorter.predict([good] + fine), lambda: sorter.votes([good] + fine)):
            self.warns([], call)
        for call, what in (
            (lambda: fit.predict([good, large]), "the decision on"),
            (lambda: sorter.predict([good, large]), "a decision on"),
            (lambda: sorter.votes([good, large]), "a decision on"),
            (lambda: sorter.score([good, large], SIDES[1:3]), "a decision on"),
        ):
            _, told = self.warns([NotFinite], call)
            self.assertEqual(told, [f"{what} row 1, counted from 0, isn't finite: the label of such a row says nothing"])
        _, told = self.warns([NotFinite, NotFinite], lambda: sorter.predict([large, good, [math.nan] * 4, large]))
        self.assertTrue(told[0].startswith("a kernel value of row 2, counted") and told[1].startswith("a decision on row 0, and 1 more, counted"))
        # A pair whose rho isn't finite decides nothing.
        gone, _ = warned(lambda: fit_languages(LINE, SIDES, retired=[2, 3]))
        self.warns([NotFinite], lambda: gone.predict([good]))

    def test_above_ceiling(self):
        # docs/DIFFERENCES.md, 'Unequal ceilings have no box': sample 1 ends above its ceiling by a rounding.
        matrix = [[3, 2, 0, 1], [2, 2, 2, 1], [0, 2, 2, 2], [1, 1, 2, 1]]
        given = [0, 1, 1, 1], [2, 1, 1, 1], [2, 0, 1, 0], [-2, 0, -2, 0]
        fit, told = self.warns([AboveCeiling, NotReleasable], lambda: fit_general(matrix, *given, eps=0.0, budget=3))
        self.assertEqual((fit.home[1], fit.above_ceiling, fit.one_ceiling), (1.0000000000000002, [1], False))
        self.assertEqual(told[0], "a weight is above its ceiling, which can't be with equal ceilings: samples [1]")
        for fit, same in (
            (fit_c(LINE, SIDES), True), (fit_c(LINE, SIDES, 2, 2.0), True), (fit_c(LINE, SIDES, 2, 1), False), (fit_nu(LINE, SIDES, 0.3), True),
            (fit_general(LINE, SIDES, [2] * 4, [0] * 4, [-1] * 4), True), (fit_general(LINE, SIDES, [2, 2, 1, 2], [0] * 4, [-1] * 4), False),
            (fit_general(LINE, SIDES, [2, 2, 1, 2], [0] * 4, [-1] * 4, retired=[2]), True), (fit_c(LINE, SIDES, 2, 1, retired=[0]), False),
        ):
            self.assertEqual((fit.one_ceiling, fit.above_ceiling, fit.below_zero), (same, [], []))

    def test_below_zero(self):
        # Shrinking moves sample 1 to a place with another ceiling.
        matrix, labels = [[10, -6, -4, 7], [-6, 10, -4, -5], [-4, -4, 8, -2], [7, -5, -2, 5]], [0, 0, 0, 1]
        fit, told = self.warns([Shrinking, BelowZero], lambda: fit_c(matrix, labels, 10, 1, eps=1e-3, shrinking=True))
        self.assertEqual((fit.home[1], fit.below_zero, fit.above_ceiling), (0.3135480436518501, [1], []))
        self.assertEqual(told[1], "a weight is below 0, for the other class, and with equal ceilings none can be: samples [1]")
        lists = [1, 1, 1, 10], [0] * 4, [-1] * 4
        fit, _ = self.warns([Shrinking, BelowZero], lambda: fit_general(matrix, labels, *lists, eps=1e-3, shrinking=True))
        self.assertEqual((fit.home[1], fit.below_zero, fit.above_ceiling), (-0.3135480436518501, [1], []))
        self.warns([Shrinking], lambda: fit_c(matrix, labels, 10, 1, eps=1e-3, shrinking=True, travelling=True))
        # However far below 0, it is below its ceiling; a zero isn't below.
        for home, marks in (([-7.0, -0.0, -1.0, 2.0], None), ([7.0, -0.0, 1.0, 2.0], bytes([0, 1, 0, 1])), ([7.0, 0.0, 1.0, 2.0], bytes([0, 0, 0, 1]))):
            fit = Fit(home, home, 0.5, None, 0.0, 7, 0, marks=marks, ceilings=[1.0] * 3 + [1.5])
            self.assertEqual((fit.below_zero, fit.above_ceiling), ([0, 2], [3]))
        # Under nu, and of one class, none is marked.
        self.assertEqual([fit_nu(LINE, SIDES, 0.3).below_zero, fit_one_class(LINE).below_zero], [[], []])


class Words(unittest.TestCase):
    """What a refusal says, in the caller's words."""

    def told(self, number, words, fit, *given, **options):
        with warnings.catch_warnings():
            warnings.simplefilter("ignore", Doubtful)
            with self.assertRaises(Refusal) as caught:
                fit(*given, **options)
        self.assertEqual((caught.exception.number, caught.exception.sentence), (number, words))
        self.assertTrue(str(caught.exception).endswith(": " + words))

    def test_sizes(self):
        y = [1, 0]
        self.told(1, "there are 0 samples: give 1 to 512", fit_c, [], [])
        self.told(1, "there are 513 samples: give 1 to 512", fit_c, identity(513), [1] * 513)
        self.told(1, "there are -1 samples: give 1 to 512", fit_one_class, IDENTITY, n=-1)
        self.told(2, "matrix is 64x5, needs 64x64: there are 64 labels", fit_c, [[0] * 5] * 64, [1] * 64)
        self.told(2, "matrix is 2 columns of 1 to 3 numbers, needs 2x2: there are 2 labels", fit_c, [[1, 0, 0], [1]], y)
        self.told(2, "matrix is 3 numbers, needs 2x2: there are 2 labels", fit_c, [1, 0, 0], y)
        self.told(2, "matrix is 3 numbers in 31 bytes, needs 2x2: there are 2 labels", fit_c, bytes(31), y)
        self.told(2, "matrix is 1x4, needs 2x2: there are 2 labels", fit_c, memoryview(bytes(32)).cast("d", (1, 4)), y)
        self.told(2, "matrix is 2x2, needs 3x3", fit_one_class, IDENTITY, n=3)
        self.told(2, "alphas has 3 numbers, needs 2", fit_general, IDENTITY, y, [1, 1], [0] * 3, [0, 0])
        self.told(2, "linear has 0.125 numbers, needs 2", fit_general, IDENTITY, y, [1, 1], [0, 0], b"\0")

    def test_values(self):
        y = [1, 0]
        finite = "finite ones up to 2^1000 in magnitude are taken; scale the kernel down or mend that entry"
        self.told(3, f"the kernel value in column 1, row 0 is -inf: {finite}", fit_c, [[1, 0], [-math.inf, 1]], y)
        pair = "0 and 1 are taken, or two whole numbers, or two strings"
        self.told(4, f"the label of sample 1 is 0.5: {pair}", fit_c, IDENTITY, [1, 0.5])
        more = "; here are 3 different ones, and altuliscia_languages sorts up to 12"
        self.told(4, f"the label of sample 2 is 7: {pair}{more}", fit_c, identity(3), [1, 0, 7])
        self.told(4, f"the label of sample 2 is 2: {pair}; here are 13 different ones", fit_c, identity(13), range(13))
        for name, given, value in (("cpos", (0.0, 1.0), 0.0), ("cneg", (1.0, math.nan), math.nan)):
            self.told(5, f"{name} is {value}: a ceiling is above 0 and at most 2^1000", fit_c, IDENTITY, y, *given)
        self.told(5, "C is -1: a ceiling is above 0 and at most 2^1000", fit_c, IDENTITY, y, C=-1)
        self.told(5, "C is -1: a ceiling is above 0 and at most 2^1000", fit_c, IDENTITY, y, C=-1, retired=[1])
        self.told(5, "ceiling 1 is 0.0: a ceiling is above 0 and at most 2^1000", fit_general, IDENTITY, y, [1, 0], [0, 0], [0, 0])
        self.told(6, "start alpha 1 is 2.0 and its ceiling 1.0: start within 0 and the ceiling", fit_general, IDENTITY, y, [1, 1], [1, 2], [0, 0])
        self.told(7, "linear term 0 is nan: give a finite one", fit_general, IDENTITY, y, [1, 1], [0, 0], [math.nan, 0])

    def test_settings(self):
        y = [1, 0]
        for options in ({"eps": -1.0}, {"tol": -1.0}):
            self.told(8, "eps (tol) is -1.0: give 0 or a finite number above it", fit_c, IDENTITY, y, **options)
        self.told(9, "nu is 1.5: give a number above 0 and not above 1", fit_nu, IDENTITY, y, 1.5)
        self.told(9, "nu is 0: give a number above 0 and not above 1", fit_one_class, IDENTITY, nu=0)
        for options in ({"budget": 0}, {"max_iter": 0}):
            self.told(10, "budget (max_iter) is 0: give 1 to 10000000 passes", fit_c, IDENTITY, y, **options)
        self.told(13, "shrinking is on and samples are retired: train with shrinking off", fit_c, IDENTITY, y, shrinking=True, retired=[1])
        self.told(14, "floor is 2: give a number above 0 and not above 1; the usual one is 1e-10", fit_c, IDENTITY, y, floor=2)


if __name__ == "__main__":
    unittest.main()
