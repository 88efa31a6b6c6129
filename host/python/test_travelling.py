"""Tests of both modes: ceilings that stay with the places, and ceilings that travel with their samples."""
import math
import random
import unittest
from unittest import mock

import altuliscia
from altuliscia import AboveCeiling, Refusal, Shrinking, fit_c, fit_general, fit_nu, fit_one_class
from altuliscia_languages import fit_languages
from altuliscia_taken import Problem
from altuliscia_trail import trail_c, trail_general, trail_nu, trail_one_class
from test_altuliscia import IDENTITY, bits, identity, shown, told
from test_doubts import Doubts, warned

# The products of the points (-3 1), (1 3), (1 0) and (1 2), and 1 more for a point with itself. Shrinking moves the first and the last.
KERNEL = [[11, 0, -3, -1], [0, 11, 1, 7], [-3, 1, 2, 1], [-1, 7, 1, 6]]
LABELS = [0, 0, 0, 1]
# The general problem of docs/DIFFERENCES.md: kernel, labels, ceilings, alphas, linear terms.
GENERAL = ([[4, 0, 0, -1], [0, 2, 2, 1], [0, 2, 4, 0], [-1, 1, 0, 3]], [1, 0, 0, 0], [1, 2, 2, 2], [0, 2, 0, 2], [2, 1, 1, -1])


class Modes(Doubts):
    def test_own_ceiling(self):
        fit, _ = self.warns([Shrinking, AboveCeiling], lambda: fit_c(KERNEL, LABELS, 1.0, 2.0, shrinking=True))
        self.assertEqual((fit.home[3], fit.above_ceiling, fit.n_iter_), (1.146617692072237, [3], [5]))
        fit, _ = self.warns([Shrinking], lambda: fit_c(KERNEL, LABELS, 1.0, 2.0, shrinking=True, travelling=True))
        self.assertEqual((fit.home, fit.n_iter_), ([0.0, -0.6400367309458219, -0.3599632690541781, 1.0], [5]))
        self.assertEqual(bits(fit.home), shown("travelled"))

    def test_general(self):
        for mode, home in ((False, [0, 2.020408163265306, 0.979591836734694, 1]), (True, [0, 1.020408163265306, 0.979591836734694, 2])):
            fit, _ = warned(lambda: fit_general(*GENERAL, eps=0.0, shrinking=True, budget=100, travelling=mode))
            self.assertEqual((fit.home, fit.n_iter_, fit.above_ceiling), (home, [5], [] if mode else [1]))

    def drawn(self, seed):
        draw = random.Random(seed)
        points = [[draw.randrange(7) - 3 for _ in "ab"] for _ in range(8)]
        kernel = [[sum(x * y for x, y in zip(a, b)) + (a is b) for b in points] for a in points]
        return kernel, [0, 1] + [draw.randrange(2) for _ in range(6)]

    def both(self, *given, **options):
        """What both modes answer, as what can be compared."""
        found = []
        for mode in (False, True):
            try:
                found.append(told(warned(lambda: fit_c(*given, **options, travelling=mode))[0]))
            except Refusal as refusal:
                found.append(refusal.number)
        return found

    def test_where_it_has_a_say(self):
        parted = 0
        for seed in range(60):
            problem = self.drawn(seed)
            for given, shrinking in (((2.0, 0.5), False), ((2.0, 2.0), False), ((2.0, 2.0), True)):
                places, own = self.both(*problem, *given, eps=1e-3, budget=300, shrinking=shrinking)
                self.assertEqual(places, own)
            places, own = self.both(*problem, 2.0, 0.5, eps=1e-3, budget=300, shrinking=True)
            parted += places != own
        self.assertGreater(parted, 3)

    def test_flags(self):
        for mode in (0, 1):
            fit, _ = warned(lambda: fit_c(KERNEL, LABELS, 1.0, 2.0, shrinking=1, travelling=mode))
            self.assertEqual(fit.above_ceiling, [] if mode else [3])


class NotTaken(unittest.TestCase):
    def refused(self, number, words, call, *given, **options):
        with self.assertRaises(Refusal) as caught:
            call(*given, **options)
        self.assertEqual((caught.exception.number, caught.exception.index, caught.exception.sentence), (number, 0, words))

    def test_retired(self):
        words = "travelling is on and samples are retired: train with travelling off; nothing moves there"
        lists = [1] * 2, [0] * 2, [-1] * 2
        for options in ({}, {"shrinking": True}, {"eps": -1.0}, {"budget": 0}, {"floor": math.nan}):
            self.refused(2, words, fit_c, IDENTITY, [1, 0], retired=[1], travelling=True, **options)
            self.refused(2, words, fit_general, IDENTITY, [1, 0], *lists, retired=[1], travelling=True, **options)
        self.refused(2, words, fit_c, IDENTITY, [1, 0], -1.0, 1.0, retired=[1], travelling=True)
        self.refused(2, "matrix is 2x2, needs 3x3: there are 3 labels", fit_c, IDENTITY, [1, 0, 1], retired=[1], travelling=True)
        self.refused(2, "alphas has 3 numbers, needs 2", fit_general, IDENTITY, [1, 0], [1] * 2, [0] * 3, [-1] * 2, retired=[1], travelling=True)
        self.refused(1, "there are 513 samples: give 1 to 512", fit_c, identity(513), [1, 0] * 256 + [1], retired=[1], travelling=True)
        # A list that names nobody retires nobody.
        self.assertTrue(fit_c(IDENTITY, [1, 0], retired=[], travelling=True).releasable)

    def test_others(self):
        for call, given, ceiling in ((fit_nu, (KERNEL, LABELS, 0.3), "1"), (fit_one_class, (KERNEL,), "1"), (fit_languages, (KERNEL, LABELS), "the same")):
            with self.assertRaises(TypeError) as caught:
                call(*given, travelling=True)
            words = f"travelling is on, and here every ceiling is {ceiling}, so both modes answer alike: train with travelling off"
            self.assertEqual(str(caught.exception), words)
            self.assertEqual(repr(call(*given, travelling=False)), repr(call(*given)))
        lists = [1, 1, 1, 2], [0] * 4, [-1] * 4
        for trail, given in ((trail_c, (LABELS, 1.0, 2.0)), (trail_nu, (LABELS, 0.3)), (trail_one_class, ()), (trail_general, (LABELS, *lists))):
            with self.assertRaises(ValueError) as caught:
                trail(KERNEL, *given, sample=0, travelling=True)
            self.assertEqual(str(caught.exception), "a trail is told with travelling off: with shrinking off, as it is here, both modes answer alike")
            self.assertEqual(trail(KERNEL, *given, sample=0, travelling=False)[:-2], trail(KERNEL, *given, sample=0)[:-2])
        with self.assertRaises(Refusal) as caught:
            fit_c(IDENTITY, [1, 0], floor=0, shrinking=True, travelling=True)
        self.assertEqual(caught.exception.number, 14)

    def test_older_library(self):
        # It is lent no more than before where travelling is off, and refuses what it doesn't know.
        lent = []

        def called(name, n, lists, given, eps, shrinking, budget, late=(), gone=()):
            lent.append(late)
            raise Refusal(2, 0)

        with mock.patch.object(altuliscia, "_called", called):
            words = "travelling is on, and this library doesn't know it: 1.6.0 and later ones do"
            self.refused(2, words, fit_c, IDENTITY, [1, 0], travelling=True)
            with self.assertRaises(Refusal) as caught:
                fit_c(IDENTITY, [1, 0])
        self.assertNotIn("travelling", caught.exception.sentence)
        self.assertEqual(lent, [(bits([1e-10]) + b"\1" + bytes(7),), (bits([1e-10]),)])
        self.assertIsNone(Problem(IDENTITY, [1, 0]).told(2, 0, {}))


if __name__ == "__main__":
    unittest.main()
