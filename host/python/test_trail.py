"""Tests of altuliscia_trail.py over the shared object."""
import doctest
import math
import os
import random
import re
import unittest
from unittest import mock

import altuliscia
import altuliscia_trail
from altuliscia import Refusal, find_pair, fit_c, fit_general, fit_nu, fit_one_class
from altuliscia_trail import Differs, trail_c, trail_general, trail_nu, trail_one_class
from test_altuliscia import IDENTITY, ROOT, Problem, bits, figures, identity, read, setUpModule, tearDownModule  # noqa: F401


def load_tests(loader, tests, pattern):
    tests.addTests(doctest.DocTestSuite(altuliscia_trail))
    tests.addTests(doctest.DocFileSuite(os.path.join(ROOT, "docs", "TRAIL.md"), module_relative=False))
    return tests


def same(x, y):
    return bits([x]) == bits([y]) or x != x and y != y


class Trails(unittest.TestCase):
    """All trails of a training, beside each other and beside what the library answers."""

    def trails(self, trail, fit, *given, **options):
        answer = fit(*given, **options)
        n = len(answer.home)
        told = [trail(*given, sample=s, **options) for s in range(n)]
        for s, one in enumerate(told):
            self.assertTrue(same(one.home, answer.home[s]) and one.sample == s)
            self.assertEqual((one.fit.n_iter_, one.retired), (answer.n_iter_, s in answer.retired_))
            weight = one.start
            for step in one.steps:
                self.assertTrue(same(step.before.weight, weight))
                weight = step.left
                self.step(told, s, step)
            self.assertTrue(same(one.end, weight))
            if answer.r is None:
                budgets = {step.pass_ - k for step in one.steps for k in (0, 1)} - {0}
                self.assertEqual(one.calls, 1 + len(budgets))
        passes = sorted(step.pass_ for one in told for step in one.steps)
        self.assertEqual(passes, sorted(2 * list(range(1, answer.n_iter_[0] + 1))))
        return told

    def step(self, told, s, step):
        """The pair finder leaves what it left, and the partner's trail has it, seen from the other side."""
        own, other = (0, 1) if step.first else (1, 0)
        both = (step.before, step.partner_before)
        left = find_pair(both[own], both[other], step.entry, step.agree)
        self.assertTrue(same(left[own], step.left) and same(left[other], step.partner_left))
        turned = step._replace(partner=s, first=not step.first, before=step.partner_before, partner_before=step.before,
                               left=step.partner_left, partner_left=step.left)
        theirs = [one for one in told[step.partner].steps if one.pass_ == step.pass_]
        self.assertEqual(repr(theirs), repr([turned]))

    def all_kinds(self, problem, retired, **options):
        """The trails of every kind of training, in one list."""
        lists, n = (problem.matrix, *problem.lists()), len(problem.labels)
        told = self.trails(trail_c, fit_c, problem.matrix, problem.labels, 2.0, 0.75, **options)
        told += self.trails(trail_c, fit_c, problem.matrix, problem.labels, 1, 1, retired=retired, **options)
        told += self.trails(trail_nu, fit_nu, problem.matrix, problem.labels, 0.3, **options)
        told += self.trails(trail_one_class, fit_one_class, problem.matrix, 0.4, **options)
        told += self.trails(trail_one_class, fit_one_class, bits(sum(problem.matrix, [])), 1 / 3, n=n, **options)
        for nu_rule in (False, True):
            told += self.trails(trail_general, fit_general, *lists, nu_rule=nu_rule, **options)
            told += self.trails(trail_general, fit_general, *lists, nu_rule=nu_rule, retired=retired, **options)
        return told

    def test_drawn(self):
        draw = random.Random(7)
        told = []
        for _ in range(80):
            n = draw.randint(1, 8)
            gone = draw.sample(range(n), draw.randint(0, n - 1))
            told += self.all_kinds(Problem(draw, n), gone, eps=1e-3, budget=draw.choice((1, 5, 40)))
        steps = [step for one in told for step in one.steps]
        for kind in ("agree", "first"):
            found = sum(getattr(step, kind) for step in steps)
            self.assertTrue(500 < found < len(steps) - 500, (kind, found, len(steps)))
        clipped = sum(step.clipped() for step in steps)
        self.assertTrue(500 < clipped < len(steps) - 500, (clipped, len(steps)))
        self.assertGreater(sum(not one.steps for one in told), 500)

    def test_strange_numbers(self):
        draw, huge = random.Random(9), 2.0 ** 1000
        told = []
        for k in range(100):
            problem = Problem(draw, draw.randint(2, 6))
            n = len(problem.labels)
            problem.matrix = [[draw.choice((0.0, -0.0, 1.0, -2.0, huge, -huge, 5e-324)) for _ in range(n)] for _ in range(n)]
            problem.ceilings = [draw.choice((5e-324, 1.0, 7.0, huge)) for _ in range(n)]
            problem.alphas = [draw.choice((0.0, -0.0, x, x / 2)) for x in problem.ceilings]
            problem.linear = [draw.choice((-1.0, 0.0, 3.0, 1.7e308, -1.7e308)) for _ in range(n)]
            told += self.all_kinds(problem, [0], eps=(0.0, 1e300)[k % 2], budget=9)
        steps = [step for one in told for step in one.steps]
        self.assertGreater(sum(math.isinf(step.before.gradient) for step in steps), 50)
        self.assertGreater(sum(step.taken() == 0.0 for step in steps), 50)

    def test_starts(self):
        # A threshold that no finite sum reaches: the run ends before its first pass.
        for n in (1, 2, 7, 10, 512):
            for nu in (1, 0.5, 1 / 3, 0.1, 5e-324):
                starts = altuliscia_trail._first_ones(n, nu)
                self.assertEqual(bits(fit_one_class(identity(n), nu, eps=1.7e308).home), bits(starts))
                labels = [k * k % 7 < 3 for k in range(n)]
                starts = altuliscia_trail._shared(labels, nu)
                fit = fit_nu(identity(n), labels, nu, eps=1.7e308)
                signed = (x if label else -x for x, label in zip(starts, labels))
                home = [altuliscia_trail._quotient(x, fit.r) for x in signed]
                self.assertTrue(all(same(x, y) for x, y in zip(home, fit.home)))

    def test_retired(self):
        lists = (identity(3), [1, 0, 0], [3.0] * 3, [2.0, 2.0, 0.0], [5.0] * 3)
        one = trail_general(*lists, sample=1, retired=[1])
        self.assertEqual((one.retired, one.start, one.end, one.home, one.steps, one.calls), (True, 0.0, 0.0, 0.0, [], 1))
        one = trail_c(identity(3), [1, 0, 0], sample=1, retired=[1])
        self.assertEqual((one.retired, bits([one.start, one.end, one.home]), one.steps), (True, bytes(24), []))
        one = trail_c(identity(3), [1, 0, 0], sample=0, retired=[1])
        self.assertEqual((one.retired, [step.partner for step in one.steps]), (False, [2]))

    def test_forms(self):
        # What can be read once only is read once.
        plain = trail_c([[2, 0, 1], [0, 1, 0], [1, 0, 3]], [1, 0, 1], 5, 5, sample=2, retired=[1])
        columns = (iter([2, 0, 1]), iter([0, 1, 0]), iter([1, 0, 3]))
        again = trail_c([list(column) for column in columns], iter([1, 0, 1]), 5, 5, sample=2, retired=iter([1]))
        self.assertEqual(again[:-2], plain[:-2])
        lists = ([1, 0], [1, 1], [0, 0], [-1, -1])
        again = trail_general(IDENTITY, *map(iter, lists), sample=0)
        self.assertEqual(again[:-2], trail_general(IDENTITY, *lists, sample=0)[:-2])

    def test_above_the_ceiling(self):
        # The problem of host/command/tests, where the second class has twice the cost of the first.
        rows = [line.split() for line in read("host/command/tests/over/mod.rs").splitlines() if re.match(r"-?1 0:", line)]
        matrix = [[float(word.split(":")[1]) for word in row[2:]] for row in rows]
        told = self.trails(trail_c, fit_c, matrix, [row[0] == "1" for row in rows], 1, 2, eps=0.001)
        self.assertEqual([one.sample for one in told if one.end > one.ceiling], [3])

    def test_many_passes(self):
        # With a threshold of 0 the run goes on to its budget.
        matrix = [[54, 31, 21], [31, 73, 13], [21, 13, 14]]
        told = self.trails(trail_c, fit_c, matrix, [1, 0, 1], eps=0.0, budget=400)
        self.assertEqual([len(one.steps) for one in told], [17, 385, 398])
        self.assertEqual((told[2].fit.fit_status_, told[2].calls), (1, 401))


class Wrong(unittest.TestCase):
    """A replay with a fault is noticed, by whoever follows any sample."""

    MATRIX = [[4, -4, 3, -3], [-4, 3, 2, -2], [3, 2, 4, 0], [-3, -2, 0, 5]]

    def noticed(self, cost=0.5):
        passes = []
        for sample in range(4):
            try:
                trail_c(self.MATRIX, [1, 0, 1, 1], cost, cost, sample=sample)
                passes.append(None)
            except Differs as differs:
                self.assertIn(f"after pass {differs.pass_} the replay and the library differ in ", str(differs))
                passes.append(differs.pass_)
        return passes

    def spoilt(self, change):
        """While it lasts, each replay begins with that change."""
        kept = altuliscia_trail._Replay.__init__

        def init(replay, *given, **options):
            kept(replay, *given, **options)
            change(replay)

        return mock.patch.object(altuliscia_trail._Replay, "__init__", init)

    def with_finder(self, finder):
        with mock.patch("altuliscia.find_pair", finder):
            return self.noticed()

    def test_finder(self):
        right = altuliscia.find_pair
        self.assertEqual(self.with_finder(right), [None] * 4)
        self.assertEqual(self.with_finder(lambda i, j, entry, agree: right(i, j, entry, not agree)), [3, 1, 3, 1])
        self.assertEqual(self.with_finder(lambda i, j, entry, agree: right(i, j, -entry, agree)), [2, 1, 1, 1])
        self.assertEqual(self.with_finder(lambda i, j, entry, agree: right(j, i, entry, agree)), [3, 2, 2, 2])

    def test_replay(self):
        def nudged(replay):
            replay.gradients[1] += 1e-15

        def signed(replay):
            replay.weights[0] = -0.0

        for change, passes in (
            (lambda replay: None, [None] * 4),
            (nudged, [3, 1, 1, 1]),
            (signed, [3, 1, 1, 1]),
            (lambda replay: setattr(replay, "eps", 2.0), [1] * 4),
            (lambda replay: setattr(replay, "nu_rule", True), [0] * 4),
        ):
            with self.spoilt(change):
                self.assertEqual(self.noticed(), passes)
        with self.spoilt(lambda replay: setattr(replay, "eps", 0.0)):
            self.assertEqual(self.noticed(cost=1.0), [3] * 4)

    def test_library(self):
        # As if a call with a smaller budget stopped early.
        trained = altuliscia._fit_c

        def stopped(problem, costs, options):
            fit = trained(problem, costs, options)
            fit.n_iter_ = fit.n_iter_ if options.budget == altuliscia.MOST_PASSES else [0]
            return fit

        with mock.patch("altuliscia._fit_c", stopped):
            self.assertEqual(self.noticed(), [None, 1, 1, 1])

    def test_names(self):
        """The other names of altuliscia.fit_c, and that a cost of one class alone warns here, too."""
        matrix = [[2.0, 1.0, 0.5], [1.0, 2.0, 0.25], [0.5, 0.25, 2.0]]
        plain = trail_c(matrix, [1, 0, 1], 0.5, 0.5, sample=1, eps=1e-3, budget=4)
        named = trail_c(matrix, ["b", "a", "b"], sample=1, C=0.5, tol=1e-3, max_iter=4)
        self.assertEqual(named[:-2], plain[:-2])
        with self.assertWarns(altuliscia.OneCost) as caught:
            trail_c(matrix, [1, 0, 1], 10.0, sample=1)
        self.assertEqual(os.path.basename(caught.filename), "test_trail.py")
        with self.assertRaises(TypeError):
            trail_c(matrix, [1, 0, 1], 10.0, sample=1, C=1.0)

    def test_undivided(self):
        # r is infinite, so every weight is answered as 0.
        one = trail_nu(IDENTITY, [1, 0], 1.0, sample=0)
        self.assertEqual((one.fit.r, one.start, one.home, one.calls), (math.inf, 1.0, 0.0, 2))

        def halved(replay):
            replay.weights[1] = 0.5

        with self.spoilt(halved), self.assertRaises(Differs) as caught:
            trail_nu(IDENTITY, [1, 0], 1.0, sample=0)
        self.assertEqual((caught.exception.pass_, caught.exception.sample), (0, 1))


class Refused(unittest.TestCase):
    def kinds(self):
        lists = ([1, 0], [1, 1], [0, 0], [-1, -1])
        return ((trail_c, (IDENTITY, [1, 0])), (trail_nu, (IDENTITY, [1, 0])), (trail_one_class, (IDENTITY,)),
                (trail_general, (IDENTITY, *lists)))

    def test_each(self):
        for trail, given in self.kinds():
            for budget in (0, 10_000_001):
                with self.assertRaises(Refusal) as caught:
                    trail(*given, sample=9, budget=budget)
                self.assertEqual(caught.exception.number, 10)
            with self.assertRaises(Refusal) as caught:
                trail([[1, 0], [math.nan, 1]], *given[1:], sample=0)
            self.assertEqual((caught.exception.number, caught.exception.index), (3, 2))
            with self.assertRaises(ValueError) as caught:
                trail(*given, sample=0, shrinking=True)
            self.assertEqual(str(caught.exception), "a trail is told with shrinking off: with it on, samples move")
            for floor in (1e-12, 1.0000000000000002e-10, 1.0):
                with self.assertRaises(ValueError) as caught:
                    trail(*given, sample=0, floor=floor)
                self.assertEqual(str(caught.exception), "a trail is told with the usual floor, 1e-10: the pair finder has no other")
            for floor in (0.0, 1.0000000000000002, math.nan):
                with self.assertRaises(Refusal) as caught:
                    trail(*given, sample=0, floor=floor)
                self.assertEqual(caught.exception.number, 14)
            with self.assertRaises(TypeError):
                trail(*given, sample=0, floor="low")
            self.assertEqual(trail(*given, sample=0, floor=1e-10)[:-2], trail(*given, sample=0)[:-2])
        for n in (-1, 0, 513):
            with self.assertRaises(Refusal) as caught:
                trail_one_class(IDENTITY, sample=0, n=n)
            self.assertEqual(caught.exception.number, 1)

    def test_samples(self):
        for trail, given in self.kinds():
            for sample in (2, -1, 1 << 70):
                with self.assertRaises(ValueError) as caught:
                    trail(*given, sample=sample)
                self.assertEqual(str(caught.exception), f"there is no sample {sample}: n is 2, and samples are counted from 0")
            for sample in (None, 1.0, "1", True):
                with self.assertRaises(TypeError):
                    trail(*given, sample=sample)
            with self.assertRaises(TypeError):
                trail(*given)


class Recorded(unittest.TestCase):
    """What the command line tells of the Czech and Slovak captions, which the Rust crate found, number by number."""

    def calls(self):
        for part in read("captions/cs-sk.trail.expected").split("$ altuliscia trail ")[1:]:
            words, text = part.split("\n", 1)
            words = words.split()
            self.assertEqual(words.pop(), "cs-sk.train")
            yield dict(zip(words[::2], words[1::2])), text

    def told(self, options):
        matrix, labels, _, _ = figures("cs-sk")
        given = {"sample": int(options["--sample"]) - 1, "eps": float(options.get("-e", "0.001"))}
        if "--retired" in options:
            given["retired"] = [int(word) - 1 for word in options["--retired"].split(",")]
        kind, nu = options.get("-s", "0"), float(options.get("-n", "0.5"))
        if kind == "1":
            return trail_nu(matrix, labels, nu, **given)
        if kind == "2":
            return trail_one_class(matrix, nu, **given)
        cost = float(options.get("-c", "1"))
        return trail_c(matrix, labels, cost, cost, **given)

    def rows(self, text, head):
        """The rows of the table whose names of columns begin so, without those."""
        lines = iter(text.splitlines())
        for line in lines:
            if re.match(head, line):
                break
        return [line.split() for line in iter(lambda: next(lines, ""), "")]

    def numbers(self, words):
        return bits(float(word) for word in words)

    def test_as_told(self):
        steps = 0
        for options, text in self.calls():
            trail = self.told(options)
            found = re.search(r"^weight (\S+)\n\nIt starts at (\S+), its ceiling is (\S+); (\w+) of the (\d+) steps", text, re.MULTILINE)
            self.assertEqual(self.numbers(found.group(1, 2, 3)), bits([trail.home, trail.start, trail.ceiling]))
            self.assertEqual(found.group(4, 5), (str(len(trail.steps) or "none"), str(trail.fit.n_iter_[0])))
            calls = re.search(r"^Checked with (\d+) calls? of the library", text, re.MULTILINE)
            self.assertEqual(int(calls.group(1)), trail.calls)
            first, second = self.rows(text, r"  pass  partner  "), self.rows(text, r"  pass  gradient  ")
            self.assertEqual((len(first), len(second)), (len(trail.steps), len(trail.steps)))
            for step, story, grounds in zip(trail.steps, first, second):
                self.row(step, story, grounds)
                steps += 1
        self.assertGreater(steps, 40)

    def row(self, step, story, grounds):
        number, partner, *label, order, step_asked = story[:-1] if not step.clipped() else story[:-2]
        self.assertEqual((int(number), int(partner)), (step.pass_, step.partner + 1))
        self.assertEqual((len(label) <= 1, order), (True, "i" if step.first else "j"))
        self.assertEqual(self.numbers([step_asked, story[-1]]), bits([step.asked(), step.left]))
        if step.clipped():
            self.assertEqual(self.numbers([story[-2]]), bits([step.taken()]))
        own, other = step.before, step.partner_before
        numbers = [own.gradient, other.gradient, own.diagonal, other.diagonal, step.entry, other.weight, other.ceiling]
        self.assertEqual((int(grounds[0]), self.numbers(grounds[1:])), (step.pass_, bits(numbers)))

    def test_every_caption(self):
        matrix, labels, _, _ = figures("cs-sk")
        trails = Trails()
        for cost, steps in ((1.0, 48), (10.0, 406)):
            told = trails.trails(trail_c, fit_c, matrix, labels, cost, cost)
            self.assertEqual(told[0].fit.n_iter_, [steps])


if __name__ == "__main__":
    unittest.main()
