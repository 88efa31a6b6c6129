"""Where one sample's weight came from: where it started, every step that changed it, and what is answered.

    >>> from altuliscia_trail import trail_c
    >>> trail = trail_c([[1, 0], [0, 1]], [1, 0], sample=1)
    >>> trail.start, trail.end, trail.home
    (0.0, 1.0, -1.0)
    >>> [(step.pass_, step.partner, step.left) for step in trail.steps]
    [(1, 0, 1.0)]

The run is replayed here, by the rule (docs/RULE.md), with shrinking off and the usual floor; what a step leaves of its two weights
is asked of the library's pair finder, altuliscia.find_pair. Then the library is asked for the same: for each step that chose the
sample, a call whose budget ends just before it and one whose budget ends with it. All n weights must be the replay's, bit for bit,
and at the end also the iterations and the exit reason; else Differs is raised. So each weight in a trail is one that the library
answers. (A call can't have a budget of 0, so what the first pass of all found are the start weights by the rule. Under nu the
weights are compared as they are answered, divided by r; where r is no divisor also with those of fit_general, which aren't.)

Gradients, `delta` and which of the two is the first are computed here: no call tells them. They are confirmed in so far as the pair
finder, given them, leaves what the library's run left. A sample that is chosen often costs two trainings for each time.
"""
import math
import operator
import struct
from array import array
from collections import namedtuple

import altuliscia
from altuliscia import _EPS, _ONE, _PASSES, USUAL_FLOOR, Before, _costs, _costs_of, _options
from altuliscia_answers import signed
from altuliscia_taken import Problem, flag


class Trail(namedtuple("Trail", "sample retired ceiling start steps end home fit calls")):
    """Where one sample's weight came from.

    sample    the sample, counted from 0
    retired   whether it is retired: then it starts at 0 and no step chooses it
    ceiling   its ceiling; with ceilings that differ a weight may end above it
    start     its weight before the first pass
    steps     the steps that chose it, in their order
    end       its weight after the last pass, before it is signed and divided
    home      its weight as it is answered: its place in fit.home
    fit       what the run answers
    calls     how many calls of the library's fits the trail was compared with
    """

    __slots__ = ()


class Step(namedtuple("Step", "pass_ partner first before partner_before entry agree delta left partner_left")):
    """One step that chose the sample. Its weights are without sign and not divided.

    pass_            the pass that took it, from 1 on: after it the weights are those that a call with this budget answers
    partner          the other sample of the pair
    first            whether the sample was the first of the pair, i, and its partner the second, j; else it is the other way round
    before           what the step found of the sample, an altuliscia.Before
    partner_before   what it found of the partner
    entry            the kernel value of column i, row j, negated where the labels differ
    agree            whether the two have the same label
    delta            the step before it is clipped. Where the labels differ it is added to both weights; where they agree it is taken
                     from weight i and added to weight j
    left             the weight that it left
    partner_left     the partner's weight that it left
    """

    __slots__ = ()

    def asked(self):
        """What the step would change the sample's weight by, were nothing clipped."""
        return -self.delta if self.agree and self.first else self.delta

    def taken(self):
        """What it changed the sample's weight by."""
        return self.left - self.before.weight

    def clipped(self):
        """Whether the weight was left elsewhere than the step would have brought it."""
        return not _same(self.before.weight + self.asked(), self.left)


class Differs(RuntimeError):
    """The replay and the library part after that pass, which is a fault of one of them. `sample` is the first whose weight differs; None
    where the weights are the same and how the run goes on isn't."""

    def __init__(self, pass_, sample):
        self.pass_ = pass_
        self.sample = sample
        what = "how the run goes on" if sample is None else f"the weight of sample {sample}"
        super().__init__(f"after pass {pass_} the replay and the library differ in {what}: this is a fault of Altuliscia, and no trail "
                         "is told")

    def __reduce__(self):
        return type(self), (self.pass_, self.sample)


def trail_c(matrix, labels, cpos=_ONE, cneg=_ONE, *, sample, eps=_EPS, shrinking=False, budget=_PASSES, retired=None,
            floor=USUAL_FLOOR, C=None, tol=None, max_iter=None, travelling=False, costs=None):
    """The trail of one sample, by its number from 0 on, in what altuliscia.fit_c trains. What is refused there is refused here, and what
    warns there warns here. Shrinking must be off: with it on, samples move. So must travelling: with shrinking off it changes nothing.
    The floor must be the usual one: the pair finder has no other."""
    options = _options(eps, tol, shrinking, budget, max_iter, floor, travelling)
    problem = Problem(matrix, labels, retired)
    given = _costs(cpos, cneg, C) if costs is None else _costs_of(costs, problem, cpos, cneg, C)
    kernel, marks, gone, n = problem.kernel, problem.marks, problem.gone, problem.n

    def fit(passes):
        return altuliscia._fit_c(problem, given, options._replace(budget=passes))

    def replay():
        ceilings = [float(given[0 if mark else 1][1]) for mark in marks]
        return _Replay(kernel, marks, ceilings, [0.0] * n, [-1.0] * n, options.eps, retired=gone)

    return _trail(fit, replay, sample, problem, options, lambda weights, r: signed(weights, marks, gone))


def trail_nu(matrix, labels, nu=0.5, *, sample, eps=_EPS, shrinking=False, budget=_PASSES, floor=USUAL_FLOOR, tol=None, max_iter=None,
             travelling=False):
    """As trail_c, in what altuliscia.fit_nu trains."""
    options = _options(eps, tol, shrinking, budget, max_iter, floor, travelling)
    problem = Problem(matrix, labels)
    altuliscia._feasible(problem, nu)
    kernel, marks, n = problem.kernel, problem.marks, problem.n

    def fit(passes):
        return altuliscia._fit_nu(problem, nu, options._replace(budget=passes))

    def replay():
        return _Replay(kernel, marks, [1.0] * n, _shared(marks, nu), [0.0] * n, options.eps, nu_rule=True)

    def finished(weights, r):
        return [_quotient(weight, r) for weight in signed(weights, marks, ())]

    def plain(passes):
        general = Problem(kernel, marks, ceilings=[1.0] * n, alphas=_shared(marks, nu), linear=[0.0] * n)
        return altuliscia._fit_general(general, True, options._replace(budget=passes))

    return _trail(fit, replay, sample, problem, options, finished, plain)


def trail_one_class(matrix, nu=0.5, *, sample, n=None, eps=_EPS, shrinking=False, budget=_PASSES, floor=USUAL_FLOOR, tol=None,
                    max_iter=None, travelling=False):
    """As trail_c, in what altuliscia.fit_one_class trains."""
    options = _options(eps, tol, shrinking, budget, max_iter, floor, travelling)
    problem = Problem(matrix, n=n)
    kernel, n = problem.kernel, problem.n

    def fit(passes):
        return altuliscia._fit_one_class(problem, nu, options._replace(budget=passes))

    def replay():
        return _Replay(kernel, b"\1" * n, [1.0] * n, _first_ones(n, nu), [0.0] * n, options.eps)

    return _trail(fit, replay, sample, problem, options, lambda weights, r: weights)


def trail_general(matrix, labels, ceilings, alphas, linear, *, sample, nu_rule=False, eps=_EPS, shrinking=False, budget=_PASSES,
                  retired=None, floor=USUAL_FLOOR, tol=None, max_iter=None, travelling=False):
    """As trail_c, in what altuliscia.fit_general trains."""
    options, nu_rule = _options(eps, tol, shrinking, budget, max_iter, floor, travelling), flag("nu_rule", nu_rule)
    problem = Problem(matrix, labels, retired, ceilings=ceilings, alphas=alphas, linear=linear)

    def fit(passes):
        return altuliscia._fit_general(problem, nu_rule, options._replace(budget=passes))

    def replay():
        lists = (list(array("d", given)) for given in problem.lists.values())
        return _Replay(problem.kernel, problem.marks, *lists, options.eps, nu_rule=nu_rule, retired=problem.gone)

    return _trail(fit, replay, sample, problem, options, lambda weights, r: weights)


def _trail(fit, replay, sample, problem, options, finished, plain=None):
    """fit trains with as many passes at the most; finished gives weights as it answers them, where its r is that; plain, where it is
    there, answers them undivided."""
    if options.shrinking:
        raise ValueError("a trail is told with shrinking off: with it on, samples move")
    if options.travelling:
        raise ValueError("a trail is told with travelling off: with shrinking off, as it is here, both modes answer alike")
    answer = fit(options.budget)
    if options.floor != USUAL_FLOOR:
        raise ValueError("a trail is told with the usual floor, 1e-10: the pair finder has no other")
    number = _number(sample, len(answer.home))
    altuliscia._judged(answer, problem, options)
    return _Follower(fit, replay(), number, finished, plain).follow(answer, options.budget)


def _number(sample, n):
    if type(sample).__name__ in ("bool", "bool_"):
        raise TypeError(f"a sample's number is needed, not {sample!r:.40}")
    number = operator.index(sample)
    if not 0 <= number < n:
        raise ValueError(f"there is no sample {number}: n is {n}, and samples are counted from 0")
    return number


class _Follower:
    """A run that is followed for one sample."""

    def __init__(self, fit, replay, sample, finished, plain):
        self.fit, self.replay, self.sample, self.finished, self.plain = fit, replay, sample, finished, plain
        # The passes so far, and how many of them the library has confirmed.
        self.passes = self.confirmed = 0
        self.steps = []
        self.calls = 1

    def follow(self, answer, budget):
        """Through the whole run, whose answer this is."""
        start = self.replay.weights[self.sample]
        while self.passes < answer.n_iter_[0]:
            pair = self.replay.choose()
            if pair is None:
                raise self.differs()
            self.take(*pair)
        self.compare(answer, budget)
        ran_out = self.passes == budget
        if ran_out != (answer.fit_status_ == 1) or not ran_out and self.replay.choose() is not None:
            raise self.differs()
        s, replay = self.sample, self.replay
        return Trail(s, s in replay.retired, replay.ceilings[s], start, self.steps, replay.weights[s], answer.home[s], answer, self.calls)

    def take(self, i, j):
        """The next pass, which takes this pair."""
        met = self.sample in (i, j)
        if met:
            self.confirm()
        replay = self.replay
        both, entry, agree = (replay.before(i), replay.before(j)), replay.rows[i][j], replay.labels[i] == replay.labels[j]
        left = altuliscia.find_pair(*both, entry, agree)
        replay.carry(i, j, *left)
        self.passes += 1
        if met:
            own, other = (0, 1) if i == self.sample else (1, 0)
            step = Step(self.passes, (i, j)[other], own == 0, both[own], both[other], entry, agree, _delta(*both, entry, agree), left[own],
                        left[other])
            self.steps.append(step)
            self.confirm()

    def confirm(self):
        """Asks the library for the passes so far, where it hasn't been asked."""
        if self.passes == self.confirmed:
            return
        answer = self.fit(self.passes)
        self.calls += 1
        if answer.n_iter_ != [self.passes]:
            raise self.differs()
        self.compare(answer, self.passes)
        self.confirmed = self.passes

    def compare(self, answer, budget):
        """Whether the weights of that answer, of a call with that budget, are the replay's."""
        weights = self.replay.weights
        self.alike(self.finished(weights, answer.r), answer.home)
        if self.plain and (answer.r == 0.0 or not math.isfinite(answer.r)):
            self.alike(weights, self.plain(budget).home)
            self.calls += 1

    def alike(self, own, theirs):
        for k, (x, y) in enumerate(zip(own, theirs)):
            if not _same(x, y):
                raise self.differs(k)

    def differs(self, sample=None):
        return Differs(self.passes, sample)


class _Replay:
    """A run between two passes, by the rule and with shrinking off: position k holds sample k. Each operation is rounded once."""

    def __init__(self, kernel, labels, ceilings, alphas, linear, eps, *, nu_rule=False, retired=()):
        n = len(labels)
        matrix = array("d", kernel)
        # Row i is column i of the matrix, negated between different labels.
        self.rows = [[matrix[i * n + k] if labels[i] == labels[k] else -matrix[i * n + k] for k in range(n)] for i in range(n)]
        self.diagonal = [matrix[k * n + k] for k in range(n)]
        self.labels, self.ceilings, self.eps, self.nu_rule, self.retired = labels, ceilings, float(eps), nu_rule, retired
        self.standing = [k for k in range(n) if k not in retired]
        # A retired sample starts at 0 with linear term 0.
        self.weights = [0.0 if k in retired else x for k, x in enumerate(alphas)]
        self.gradients = [0.0 if k in retired else x for k, x in enumerate(linear)]
        for weight, row in zip(self.weights, self.rows):
            if weight != 0.0:
                self.gradients = [g + weight * x for g, x in zip(self.gradients, row)]

    def before(self, k):
        """What a step finds of sample k."""
        return Before(self.weights[k], self.ceilings[k], self.gradients[k], self.diagonal[k])

    def carry(self, i, j, left_i, left_j):
        """The two weights as a step left them, carried into each gradient: the inner sum is rounded first."""
        x, y = left_i - self.weights[i], left_j - self.weights[j]
        self.gradients = [g + (a * x + b * y) for g, a, b in zip(self.gradients, self.rows[i], self.rows[j])]
        self.weights[i], self.weights[j] = left_i, left_j

    def choose(self):
        """The pair of the next pass, i before j; None where the rule stops."""
        rises, falls = list(self.rises()), list(self.falls())
        leads, total = (self.leads_nu if self.nu_rule else self.leads_c)(rises, falls)
        if total < self.eps:
            return None
        _, j = _best(self.gains(leads, falls), math.inf, operator.le)
        return None if j is None else (leads[self.labels[j]][1], j)

    def leads_c(self, rises, falls):
        """By the C rule: the largest rise leads both labels, the last of equals. Beside it, what is compared with eps."""
        rise, fall = (_best(values, -math.inf, operator.ge) for values in (rises, falls))
        return (rise, rise), rise[0] + fall[0]

    def leads_nu(self, rises, falls):
        """By the nu rule: each label has its own largest rise, the first of equals."""
        def of(values, label):
            return _best(((k, x) for k, x in values if self.labels[k] == label), -math.inf, operator.gt)

        leads = of(rises, 0), of(rises, 1)
        x, y = (leads[label][0] + of(falls, label)[0] for label in (1, 0))
        # The larger; a NaN is passed over.
        return leads, y if x != x or x < y else x

    def rises(self):
        """-y*gradient of each sample whose y*weight may grow, in their order; y is 1 or -1 by its label."""
        for k in self.standing:
            if self.labels[k]:
                if not self.weights[k] >= self.ceilings[k]:
                    yield k, -self.gradients[k]
            elif self.weights[k] != 0.0:
                yield k, self.gradients[k]

    def falls(self):
        """y*gradient of each sample whose y*weight may shrink."""
        for k in self.standing:
            if self.labels[k]:
                if self.weights[k] != 0.0:
                    yield k, self.gradients[k]
            elif not self.weights[k] >= self.ceilings[k]:
                yield k, -self.gradients[k]

    def gains(self, leads, falls):
        """What the pair of a lead and j would gain, for each j that may be its second."""
        for j, fall in falls:
            top, i = leads[self.labels[j]]
            d = top + fall
            if i is not None and d > 0.0:
                q = _curvature(self.diagonal[i], self.diagonal[j], self.rows[i][j], self.labels[i] == self.labels[j])
                yield j, -(d * d) / (q if q > 0.0 else USUAL_FLOOR)


def _best(values, best, takes):
    """The best of some values, and who has it."""
    holder = None
    for k, value in values:
        if takes(value, best):
            best, holder = value, k
    return best, holder


def _curvature(diagonal_i, diagonal_j, entry, agree):
    """Before the floor."""
    total, twice = diagonal_i + diagonal_j, 2.0 * entry
    return total - twice if agree else total + twice


def _delta(i, j, entry, agree):
    """The step of a pair before it is clipped."""
    q = _curvature(i.diagonal, j.diagonal, entry, agree)
    rise = i.gradient - j.gradient if agree else -(i.gradient + j.gradient)
    return rise / (USUAL_FLOOR if q <= 0.0 else q)


def _shared(labels, nu):
    """nu*n/2 for each label, handed out in order, to each sample 1 at the most."""
    left = [float(nu) * len(labels) / 2.0] * 2
    shares = []
    for label in labels:
        shares.append(left[label] if left[label] < 1.0 else 1.0)
        left[label] -= shares[-1]
    return shares


def _first_ones(n, nu):
    """nu*n handed out in order, 1 to each sample as long as it lasts."""
    given = float(nu) * n
    whole = int(given)
    return [1.0 if k < whole else given - whole if k == whole else 0.0 for k in range(n)]


def _quotient(x, y):
    """As IEEE 754 has it, by a zero too."""
    if y != 0.0:
        return x / y
    return math.nan if x == 0.0 or x != x else math.copysign(math.inf, x) * math.copysign(1.0, y)


def _same(x, y):
    """To the bit; a NaN is a NaN."""
    return struct.pack("<d", x) == struct.pack("<d", y) or x != x and y != y
