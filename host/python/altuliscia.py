"""A support vector machine trainer that is proved to meet its contract, for Python: the functions of include/altuliscia.h.

`pip install ./host/python` at the root of the repository installs it with the library inside. Without an install this file needs the
library as a shared object, which is made of the shipped archive, at the root of the repository, by

    mkdir -p target
    cc -shared -o target/libaltuliscia.so \\
        -Wl,--whole-archive lib/$(uname -m)/libaltuliscia.a -Wl,--no-whole-archive

It is looked for under the name that the environment variable ALTULISCIA_SO gives, else beside this file, else in the repository's
target, else in target/native, else in target/staticlib. Nothing but Python's standard library is used.

    >>> import altuliscia
    >>> fit = altuliscia.fit_c([[1, 0], [0, 1]], [1, 0])
    >>> fit.support_, fit.dual_coef_, fit.intercept_, fit.n_iter_, fit.fit_status_
    ([0, 1], [[1.0, -1.0]], [0.0], [1], 0)
    >>> fit.decision_function([[0.75, 0.25]]), fit.predict([[0.75, 0.25]]), fit.releasable
    ([0.5], [1], True)

What is refused is told by a Refusal, which is a ValueError; what is no number at all, by a TypeError. What is answered and shouldn't be
used without a second look warns, by a Doubtful: a fit that isn't `releasable` (its `unfit` says why), an infeasible nu, a kernel that
isn't symmetric, a cost given for one class alone, a weight above its ceiling or below 0, shrinking, and what is sorted by a value that
isn't finite.
Python's own filter shows a warning once for each line that calls: warnings.simplefilter("always", altuliscia.Doubtful) shows them all.

    >>> altuliscia.fit_c([[1, 0], [float("nan"), 1]], [1, 0])
    Traceback (most recent call last):
        ...
    altuliscia.Refusal: refusal 3 at index 2: the kernel value in column 1, row 0 is nan: finite ones up to 2^1000 in magnitude are \
taken; scale the kernel down or mend that entry

A sample whose caption was withdrawn is retired: the others are trained without it and keep their numbers.

    >>> fit = altuliscia.fit_c([[1, 5, 0], [5, 5, 5], [0, 5, 1]], [1, 1, 0], retired=[1])
    >>> fit.home, fit.support_, fit.retired_
    ([1.0, 0.0, -1.0], [0, 2], [1])
    >>> fit.decision_function([[0.75, float("nan"), 0.25]])
    [0.5]

A kernel matrix is a list of n columns of n numbers each, an array of numpy, whose rows are taken as columns, or an object that holds its
bytes: column by column, eight bytes for each double (array.array("d"), bytes). It need not be symmetric, but one that isn't warns. Labels
are 1 (positive) and 0 (negative), or any two whole numbers or strings: the second in their order is positive, as in scikit-learn. `costs`
gives fit_c a cost by label. `C`, `tol` and `max_iter` are scikit-learn's names of `cpos` and `cneg` in one, `eps` and `budget`. Retired
numbers that can't be right are told by a TypeError or a plain ValueError, before anything is refused.

Where the curvature of a pair isn't above 0, `floor` stands for it. Two samples with the same kernel values and different labels are
such a pair, and a smaller floor takes longer steps along it:

    >>> [altuliscia.fit_c([[1, 1], [1, 1]], [1, 0], 1e12, 1e12, floor=floor).n_iter_ for floor in (1e-10, 1e-12)]
    [[50], [1]]

Shrinking moves samples, and as in linfa-svm a step then clips a weight by the ceiling of the place where its sample stands; with
`travelling` it is the sample's own. That has a say only where shrinking is on and the ceilings differ:

    >>> kernel = [[11, 0, -3, -1], [0, 11, 1, 7], [-3, 1, 2, 1], [-1, 7, 1, 6]]
    >>> altuliscia.fit_c(kernel, [0, 0, 0, 1], 1.0, 2.0, shrinking=True, travelling=True).home[3]
    1.0

Ctrl-C doesn't wait for the end of a long call from the main thread: that goes on by itself, in a thread, for at most `budget` passes.

Where a weight came from: altuliscia_trail has the steps that a sample went through, and find_pair is one step by itself.
altuliscia_sklearn has a classifier for scikit-learn.

Several languages: for each two of 2 to 12 languages there is a training, and each votes for one of its two. altuliscia_languages trains them
all out of one matrix. By hand, with one caption of each of three languages to train on, and two others to sort by their kernel values
with the three:

    >>> fits = [altuliscia.fit_c([[1, 0], [0, 1]], [1, 0]) for _ in altuliscia.pairs(3)]
    >>> homes, rhos = [fit.home for fit in fits], [fit.rho for fit in fits]
    >>> altuliscia.votes_of_rows(3, homes, [[0, 1], [0, 2], [1, 2]], rhos, [[0.25, 0.75, 0.5], [0.5, 0.5, 0.75]])
    [Votes(winner=2, votes=[0, 2, 1], ties=[2]), Votes(winner=3, votes=[1, 0, 2], ties=[3])]
"""
import _thread
import ctypes
import operator
import os
import struct
import threading
from array import array
from collections import namedtuple
from itertools import combinations

import altuliscia_taken as _taken
from altuliscia_answers import (SENTENCES as _SENTENCES, SUPPORT_LIMIT, AboveCeiling, Asymmetric, BelowZero, Doubtful, Fit, InfeasibleNu, NotFinite,
                                NoVotes, NotReleasable, OneCost, Refusal, Shrinking, Votes, signed as _signed, warn as _warn)

__version__ = "1.6.0"

MOST_SAMPLES = 512
MOST_PASSES = 10_000_000
FEWEST_LANGUAGES = 2
MOST_LANGUAGES = 12
USUAL_FLOOR = 1e-10  # stands for a curvature that isn't above 0, as in linfa-svm; LIBSVM has 1e-12

# What is known of an answer, and its room: the tuned functions answer sixteen words.
_ANSWER = struct.Struct("<QQdQddQQQ")
_ANSWER_BYTES = 128
_PAIR = struct.Struct("<dd")
_ELECTION = struct.Struct("<QQQ")

# What a parameter has where it isn't given.
_ONE = _taken.UsualFloat(1.0)
_EPS = _taken.UsualFloat(1e-7)
_PASSES = _taken.UsualInt(MOST_PASSES)


def fit_c(matrix, labels, cpos=_ONE, cneg=_ONE, *, eps=_EPS, shrinking=False, budget=_PASSES, retired=None, floor=USUAL_FLOOR, C=None,
          tol=None, max_iter=None, travelling=False, costs=None):
    """Trains two classes; `cpos` is the ceiling of positive samples and `cneg` that of negative ones, `C` both. Positive is the second of
    the two labels in their order: of 'cs' and 'sk' it is 'sk', whichever comes first in `labels`. `costs` has both by label instead:

    >>> kernel, labels = [[1, 1, 0], [1, 1, 0], [0, 0, 1]], ["cs", "sk", "sk"]
    >>> fit_c(kernel, labels, 10.0, 1.0).home == fit_c(kernel, labels, costs={"sk": 10.0, "cs": 1.0}).home
    True
    >>> fit_c(kernel, labels, costs={"cs": 10.0, "sk": 1.0}).home
    [-2.0, 1.0, 1.0]

    With two that differ a weight may end above its ceiling or below 0: that it can't is promised of one common ceiling alone. See
    `above_ceiling` and `below_zero`. Where one of them is given and the other left at 1, a OneCost warns.

    eps        the run ends where no pair breaks the conditions by this much; `tol` is the same
    shrinking  whether samples that seem settled are put aside; where it is on, a run may end in refusal 11, and one that doesn't warns
    budget     the most passes, 1 to 10000000; `max_iter` is the same, and its -1 is 10000000
    retired    the numbers of the samples to train without, counted from 0 as in support_, in any order. What is given for them is
               judged as any other's and has no say in the answer; shrinking must be off (refusal 13)
    floor      stands for the curvature of a pair where that isn't above 0: above 0 and not above 1 (else refusal 14). A smaller one
               takes longer steps along flat directions. With another one than the usual there is no trail
    travelling whether a sample keeps its own ceiling when shrinking moves it. With one common ceiling, and with shrinking off, the answer
               is the same either way. Where samples are retired it must be off (refusal 2)
    """
    options = _options(eps, tol, shrinking, budget, max_iter, floor, travelling)
    problem = _taken.Problem(matrix, labels, retired)
    given = _costs(cpos, cneg, C) if costs is None else _costs_of(costs, problem, cpos, cneg, C)
    return _judged(_fit_c(problem, given, options), problem, options)


def fit_nu(matrix, labels, nu=0.5, *, eps=_EPS, shrinking=False, budget=_PASSES, floor=USUAL_FLOOR, tol=None, max_iter=None,
           travelling=False):
    """Trains two classes with nu, above 0 and not above 1. Where the smaller class has fewer than nu*n/2 samples, an InfeasibleNu warns
    before anything is trained. Every ceiling is 1, so both modes answer alike, and `travelling` must be off. For the rest see fit_c."""
    _alike(travelling, "1")
    options = _options(eps, tol, shrinking, budget, max_iter, floor)
    problem = _taken.Problem(matrix, labels)
    _feasible(problem, nu)
    return _judged(_fit_nu(problem, nu, options), problem, options)


def fit_one_class(matrix, nu=0.5, *, n=None, eps=_EPS, shrinking=False, budget=_PASSES, floor=USUAL_FLOOR, tol=None, max_iter=None,
                  travelling=False):
    """Trains one class with nu, above 0 and not above 1. A matrix that isn't in columns (bytes, array.array, a flat list) needs n
    beside it. As in fit_nu `travelling` must be off. For the rest see fit_c; `n_iter_` is a list here, too."""
    _alike(travelling, "1")
    options = _options(eps, tol, shrinking, budget, max_iter, floor)
    problem = _taken.Problem(matrix, n=n)
    return _judged(_fit_one_class(problem, nu, options), problem, options)


def fit_general(matrix, labels, ceilings, alphas, linear, *, nu_rule=False, eps=_EPS, shrinking=False, budget=_PASSES, retired=None,
                floor=USUAL_FLOOR, tol=None, max_iter=None, travelling=False):
    """Trains with each sample's ceiling, start weight and linear term given. The weights of `home` are neither signed by label nor
    divided; those of `coefficients` and `dual_coef_` are signed, and `decision_function` goes by them. For the rest see fit_c."""
    options = _options(eps, tol, shrinking, budget, max_iter, floor, travelling)
    problem = _taken.Problem(matrix, labels, retired, ceilings=ceilings, alphas=alphas, linear=linear)
    return _judged(_fit_general(problem, _taken.flag("nu_rule", nu_rule), options), problem, options)


_Options = namedtuple("_Options", "eps shrinking budget floor travelling")


def _options(eps, tol, shrinking, budget, max_iter, floor, travelling=False):
    shrinking, travelling = _taken.flag("shrinking", shrinking), _taken.flag("travelling", travelling)
    return _Options(_taken.either("eps", eps, "tol", tol), shrinking, _taken.passes(budget, max_iter, MOST_PASSES), floor, travelling)


def _alike(travelling, ceiling):
    """Refuses travelling where every sample has this ceiling."""
    if _taken.flag("travelling", travelling):
        raise TypeError(f"travelling is on, and here every ceiling is {ceiling}, so both modes answer alike: train with travelling off")


def _costs(cpos, cneg, both):
    """The two costs, each with the name that it was given by."""
    if both is not None:
        return tuple(("C", _taken.either(name, cost, "C", both)) for name, cost in (("cpos", cpos), ("cneg", cneg)))
    given = [not isinstance(cost, _taken.Usual) for cost in (cpos, cneg)]
    if _taken.double(cpos) != _taken.double(cneg) and given[0] != given[1]:
        (one, cost), other = (("cpos", cpos), "cneg") if given[0] else (("cneg", cneg), "cpos")
        _warn(OneCost, f"{one} is {cost!r} and {other} isn't given, so it is 1.0: give both, or C={cost!r} for both classes")
    return ("cpos", cpos), ("cneg", cneg)


def _costs_of(costs, problem, *others):
    """The same two, out of a cost for each label."""
    if not all(other is None or isinstance(other, _taken.Usual) for other in others):
        raise TypeError("costs is given in place of cpos, cneg and C")
    if not hasattr(costs, "keys"):
        raise TypeError(f"costs has a cost for each label, as {{'cs': 10.0, 'sk': 1.0}}, not {costs!r:.40}")
    if 2 in problem.marks:
        # Of a label that can't be one the library tells, whatever it costs.
        return _costs(1.0, 1.0, None)
    found, (negative, positive) = dict(costs), problem.classes
    if set(found) != {negative, positive}:
        raise ValueError(f"costs needs the labels {negative!r} and {positive!r} and no other, not {', '.join(map(repr, found)) or 'none'}")
    return tuple((f"costs[{label!r}]", found[label]) for label in (positive, negative))


def _infeasible(problem, nu):
    """Whether the smaller class has too few samples for that nu, in words."""
    fewest, n = min(problem.marks.count(0), problem.marks.count(1)), problem.n
    value, = struct.unpack("<d", _taken.double(nu))
    if 2 in problem.marks or not 0.0 < value <= 1.0 or not value * n / 2 > fewest:
        return None
    return f"nu {value!r} is infeasible: the smaller class has {fewest} of {n} samples, so nu may be {2 * fewest / n:g} at the most"


def _feasible(problem, nu):
    """Warns where it isn't."""
    told = _infeasible(problem, nu)
    if told:
        _warn(InfeasibleNu, told)


def _judged(fit, problem, options):
    """The fit, with a warning for whatever is doubtful about it."""
    _mirrored(problem)
    _shrunk(options)
    if fit.above_ceiling:
        _warn(AboveCeiling, f"a weight is above its ceiling, which can't be with equal ceilings: samples {fit.above_ceiling}")
    if fit.below_zero:
        _warn(BelowZero, f"a weight is below 0, for the other class, and with equal ceilings none can be: samples {fit.below_zero}")
    if not fit.releasable:
        _warn(NotReleasable, f"this fit isn't to be released: {fit.unfit}")
    return fit


def _mirrored(problem):
    """Warns where the kernel isn't symmetric."""
    found = _taken.unlike(problem.kernel, problem.n, problem.gone)
    if found:
        _warn(Asymmetric, "the kernel isn't symmetric: column {0}, row {1} is {2!r}, and column {1}, row {0} is {3!r}".format(*found))


def _shrunk(options):
    """Warns where shrinking is on."""
    if options.shrinking:
        _warn(Shrinking, "shrinking is on: 'threshold' then speaks only of the samples still active, and obj and rho needn't be those of the "
                         "weights; train with shrinking=False")


# The fits without a warning.


def _fit_c(problem, costs, options):
    (_, cpos), (_, cneg) = costs
    given, n, marks, gone = (_bits(cpos), _bits(cneg)), problem.n, problem.marks, problem.gone
    ceilings = [float(cpos if mark else cneg) for mark in marks]
    told = {"classes": problem.classes, "ceilings": None if cpos == cneg else ceilings, "marks": marks}
    if not gone:
        return Fit(*_asked(problem, "altuliscia_c_tuned", problem.lent(), given, options, costs=costs), **told)
    # One pass of the C fit, for its refusals: there a bad cpos or cneg is told as such, not as a sample's ceiling. Travelling is refused
    # below, before any cost would be.
    first = options._replace(shrinking=False, budget=min(options.budget, 1))
    if not options.travelling:
        _asked(problem, "altuliscia_c_tuned", problem.lent(), given, first, costs=costs)
    lent = (*problem.lent(), _taken.doubles(ceilings), _taken.doubles([0.0] * n), _taken.doubles([-1.0] * n))
    home, crate_reading, *rest = _asked(problem, "altuliscia_retired", (*lent, _marks(gone, n)), (_flag(False),), options)
    return Fit(_signed(home, marks, gone), _signed(crate_reading, marks, gone), *rest, **told)


def _fit_nu(problem, nu, options):
    return Fit(*_asked(problem, "altuliscia_nu_tuned", problem.lent(), (_bits(nu),), options, nu=nu), classes=problem.classes)


def _fit_one_class(problem, nu, options):
    if not 0 <= problem.n < 1 << 64:
        raise Refusal(1, 0, problem.told(1, 0, {}))
    return Fit(*_asked(problem, "altuliscia_one_class_tuned", problem.lent(), (_bits(nu),), options, nu=nu), classes=problem.classes)


def _fit_general(problem, nu_rule, options):
    lent, name = (*problem.lent(), *problem.lists.values()), "altuliscia_general_tuned"
    if problem.gone:
        lent, name = (*lent, _marks(problem.gone, problem.n)), "altuliscia_retired"
    answer = _asked(problem, name, lent, (_flag(nu_rule),), options)
    ceilings = [0.0 if k in problem.gone else ceiling for k, ceiling in enumerate(array("d", problem.lists["ceilings"]))]
    same = len({ceiling for k, ceiling in enumerate(ceilings) if k not in problem.gone}) <= 1
    return Fit(*answer, classes=problem.classes, signs=problem.marks, ceilings=None if same else ceilings)


def _asked(problem, name, lent, given, options, **said):
    """As _called, with refusals in the caller's words."""
    eps, shrinking, budget, floor, travelling = options
    gone = problem.gone if name == "altuliscia_retired" else ()
    # The second word is lent only where it is on: an older library, and one with retired samples, refuses it.
    tuning = _taken.double(floor) + struct.pack("<Q", 1) * travelling
    try:
        return _called(name, problem.n, lent, given, eps, shrinking, budget, (tuning,), gone)
    except Refusal as refusal:
        said.update(options._asdict())
        number, index = refusal.number, refusal.index
        raise Refusal(number, problem.index(number, index), problem.told(number, index, said)) from None


Before = namedtuple("Before", "weight ceiling gradient diagonal")
Before.__doc__ = """What a step finds of one of its two samples: its weight, without sign and not divided, its ceiling, its
gradient, and the kernel value of the sample with itself."""


def find_pair(i, j, entry, agree):
    """What a step leaves of the weights of its two samples, as a pair: the library's own step (docs/RULE.md, 'Update').

    i, j    a Before, or four numbers in its order
    entry   the kernel value of column i, row j where the labels agree, its negative where they don't
    agree   whether the labels agree

    Nothing is refused: NaN and infinities go through the same comparisons as any other number. The floor of the curvature is the
    usual one.

    >>> sample = Before(weight=0.0, ceiling=1.0, gradient=-1.0, diagonal=1.0)
    >>> find_pair(sample, sample._replace(ceiling=0.25), -0.5, False)
    (0.25, 0.25)
    """
    (weight_i, ceiling_i, gradient_i, diagonal_i), (weight_j, ceiling_j, gradient_j, diagonal_j) = i, j
    given = (weight_i, ceiling_i, weight_j, ceiling_j, gradient_i, gradient_j, diagonal_i, diagonal_j, entry)
    pair = ctypes.create_string_buffer(_PAIR.size)
    _function("altuliscia_pair")(*map(_bits, given), _flag(agree), pair, ctypes.c_size_t(_PAIR.size))
    return _PAIR.unpack(pair.raw)


def pairs(languages):
    """The pairs of so many languages in their order: (1, 2), (1, 3) and so on, then (2, 3) and so on.

    >>> pairs(3)
    [(1, 2), (1, 3), (2, 3)]
    """
    return list(combinations(range(1, operator.index(languages) + 1), 2))


def votes(languages, coefficients, values, rhos):
    """Which of 2 to 12 languages a caption is in, by the library's own sums and count (docs/RULE.md, 'Several languages').

    coefficients   for each pair, in the order of pairs(languages), the weights of its training: `coefficients` of a fit whose positive
                   label is the first of the two
    values         for each pair the caption's kernel values with its samples, as many
    rhos           for each pair the rho of its training

    A pair's sum is formed in the order of its coefficients, also over those that are 0. Where the sum less rho is 0 or above, the pair
    votes for its first language, else, and where it is NaN, for its second. No number is refused. What is, is told by NoVotes.

    >>> votes(3, [[0.5, -0.5], [1.0], []], [[1, 1], [0.5], []], [0, 1, float("nan")])
    Votes(winner=3, votes=[1, 0, 2], ties=[3])
    """
    panel = _Panel(languages, coefficients, rhos)
    return panel.votes([_taken.doubles(given) for given in values])


def votes_of_rows(languages, coefficients, samples, rhos, rows):
    """The votes on many captions, a list with one for each row. A row has the kernel values of one caption with every training sample, of
    all languages; `samples` has for each pair the numbers of its samples, counted from 0 in a row, in the order of its coefficients. A
    matrix of numpy is a list of rows, too. For the rest see votes."""
    panel = _Panel(languages, coefficients, rhos)
    places = [[_taken.place(number) for number in given] for given in samples]
    largest = max((place for given in places for place in given), default=-1)
    found = []
    for row in _taken.rows(rows):
        if not hasattr(row, "__len__"):
            raise TypeError("a list of rows is needed, each with the kernel values of one caption")
        values = array("d", _taken.doubles(row))
        if len(values) <= largest:
            raise ValueError(f"a row has {len(values)} kernel values, but a pair has sample {largest}")
        found.append(panel.votes([array("d", [values[place] for place in given]).tobytes() for given in places]))
    return found


class _Panel:
    """What is the same for every caption."""

    def __init__(self, languages, coefficients, rhos):
        # What doesn't fit 64 bits is lent as 0, which is refused as it would be.
        self.languages = operator.index(languages)
        self.languages = self.languages if 0 <= self.languages < 1 << 64 else 0
        lists = [_taken.doubles(given) for given in coefficients]
        self.held = [len(given) // 8 for given in lists]
        self.coefficients = b"".join(lists)
        self.rhos = _taken.doubles(rhos)

    def votes(self, values):
        counts = self.held, [len(given) // 8 for given in values]
        lists = (self.coefficients, b"".join(values), *(struct.pack(f"<{len(c)}Q", *c) for c in counts), self.rhos)
        # Of more languages than may be no list is looked at.
        room = 8 * min(self.languages, MOST_LANGUAGES)
        votes, answer = ctypes.create_string_buffer(room), ctypes.create_string_buffer(_ELECTION.size)
        written = (votes, ctypes.c_size_t(room), answer, ctypes.c_size_t(_ELECTION.size))
        refusal = _function("altuliscia_votes")(ctypes.c_uint64(self.languages), *_slices(lists), *written)
        _, index, winner = _ELECTION.unpack(answer.raw)
        if refusal:
            raise _no_votes(refusal, index, self.languages * (self.languages - 1) // 2, *counts)
        told = list(struct.unpack(f"<{self.languages}Q", votes.raw))
        return Votes(winner, told, [k for k, count in enumerate(told, 1) if count == told[winner - 1]])


def _no_votes(number, index, count, held, valued):
    """Refusal 2 is of a pair exactly where there are two counts for each of that many pairs, which is judged before, and the pair's two
    differ: lengths are judged after."""
    if number == 2 and len(held) == len(valued) == count and held[index] != valued[index]:
        return NoVotes(number, index, f"Pair {index}, counted from 0, has {held[index]} coefficients and {valued[index]} kernel values: lend "
                                      "as many of both.")
    return NoVotes(number, index)


def _flag(on):
    return ctypes.c_uint8(bool(on))


def _bits(number):
    """A double as the number with the same eight bytes."""
    return ctypes.c_uint64(int.from_bytes(_taken.double(number), "little"))


def _marks(gone, n):
    """A byte for each sample: whether it is retired."""
    return bytes(k in gone for k in range(n))


def _slices(lists):
    """Each list of bytes with its length, as arguments."""
    return [part for data in lists for part in (ctypes.c_char_p(data), ctypes.c_size_t(len(data)))]


def _called(name, n, lent, given, eps, shrinking, budget, late=(), gone=()):
    """Calls a C function, which takes the lists `late` after the budget and has the samples in `gone` retired, and returns what a
    Fit is made of."""
    # What doesn't fit 64 bits is lent as 0, which is refused as it would be.
    budget = operator.index(budget)
    budget = budget if 0 <= budget < 1 << 64 else 0
    # More samples than may be are refused without a look at any list.
    room = 8 * min(n, MOST_SAMPLES)
    written = [ctypes.create_string_buffer(size) for size in (room, room, _ANSWER_BYTES)]
    results = []
    for buffer, size in zip(written, (room, room, _ANSWER_BYTES)):
        results += [buffer, ctypes.c_size_t(size)]

    def run(call, passes):
        options = (_bits(eps), _flag(shrinking), ctypes.c_uint64(passes))
        return call(_function(name), (ctypes.c_size_t(n), *_slices(lent), *given, *options, *_slices(late), *results))

    if _long(n, budget):
        refusal = _patiently(run, n, budget, written[2], not shrinking and name != "altuliscia_retired")
    else:
        refusal = run(_direct, budget)
    _, index, rho, has_r, r, obj, iterations, reason, support = _ANSWER.unpack_from(written[2])
    if refusal:
        raise Refusal(refusal, index)
    home, crate_reading = (list(struct.unpack(f"<{n}d", buffer.raw)) for buffer in (written[1], written[0]))
    return home, crate_reading, rho, r if has_r else None, obj, iterations, reason, sorted(gone), support


def _patiently(run, n, budget, answer, prefix):
    """A call that may be long. Most runs end soon, and where a run with a smaller budget is the beginning of this one, which `prefix` says,
    one that ends at the threshold is this one (docs/PROMISES.md, 'Where does this weight come from?')."""
    if prefix:
        refusal = run(_direct, _soon(n))
        if refusal or _ANSWER.unpack_from(answer)[7] == 0:
            return refusal
    return run(_aside, budget)


def _long(n, budget):
    """Whether a call may take longer than Ctrl-C should wait, half a second."""
    # Only the main thread is told of signals. A thread of less stack than a call needs, with room for Python, isn't started.
    waits = threading.current_thread() is threading.main_thread() and not 0 < threading.stack_size() < 1 << 18
    return waits and budget <= MOST_PASSES and budget * _pass_time(n) > 5e8


def _soon(n):
    """As many passes as take about as long as it does to start a thread and wait for it."""
    return int(2e5 / _pass_time(n))


def _pass_time(n):
    """About as many nanoseconds as a pass took where it was measured (x86-64)."""
    return 50 + 1.4 * n


def _direct(function, arguments):
    return function(*arguments)


def _aside(function, arguments):
    """The call in a thread of its own, so that Ctrl-C reaches who waits for it; the call then goes on alone, to its end."""
    answer, trouble, ended = [], [], _thread.allocate_lock()

    def run():
        try:
            answer.append(function(*arguments))
        except BaseException as raised:
            trouble.append(raised)
        finally:
            ended.release()

    ended.acquire()
    _thread.start_new_thread(run, ())
    ended.acquire()
    if trouble:
        raise trouble[0]
    return answer[0]


_loaded = None


def _function(name):
    """A function of the library, where that is new enough for what this file asks of it."""
    library, needed = _library(), {"altuliscia_votes": 10500, "altuliscia_pair": 10200}.get(name, 10300)
    try:
        number = library.altuliscia_version()
    except AttributeError:
        number = 0
    if number < needed:
        found = f"is version {_dotted(number)}" if number else "has no version"
        raise OSError(f"{library._name} {found}: {name} needs {_dotted(needed)} or a later 1.x; the head of altuliscia.py says how it is made")
    function = getattr(library, name)
    function.restype = ctypes.c_uint64
    return function


def _dotted(number):
    return f"{number // 10000}.{number // 100 % 100}.{number % 100}"


def _library():
    global _loaded
    if _loaded is None:
        here = os.path.dirname(os.path.abspath(__file__))
        name = "libaltuliscia.so"
        target = os.path.join(here, "..", "..", "target")
        folders = (here, target, os.path.join(target, "native"), os.path.join(target, "staticlib"))
        places = [os.path.join(folder, name) for folder in folders]
        places = [os.environ["ALTULISCIA_SO"]] if "ALTULISCIA_SO" in os.environ else places
        path = next((place for place in places if os.path.exists(place)), None)
        if path is None:
            raise OSError(f"{name} isn't there ({', '.join(places)}); the head of altuliscia.py says how it is made")
        _loaded = ctypes.CDLL(path)
    return _loaded
