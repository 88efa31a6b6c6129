"""What altuliscia.py answers: a Fit, or a refusal, and the warnings. All of these are altuliscia's own names; import them from there."""
import math
import sys
import warnings
from array import array
from collections import namedtuple
from itertools import compress

import altuliscia_taken as taken

SUPPORT_LIMIT = 100 * 2.0 ** -52  # a weight counts as support where its magnitude is above this

# The words of include/altuliscia.h.
SENTENCES = {
    1: "The number of samples is 0 or above 512: lend 1 to 512 samples.",
    2: "A list has the wrong length: lend a matrix of 8*n*n bytes, n labels, n retired bytes, 8n bytes for each list of doubles, a "
       "tuning of 0, 8 or 16 bytes, of 0 or 8 where samples may be retired, at least 8n bytes for each result list and at least 72 for "
       "the answer, under the tuned functions 128.",
    3: "A kernel entry is NaN, infinite or above 2^1000 in magnitude: the index is column*n + row; scale the kernel down or mend "
       "that entry.",
    4: "A label is neither 0 nor 1: the index is its sample; write 1 for positive, 0 for negative.",
    5: "A ceiling is NaN, not above 0 or above 2^1000: the index is its sample, in the C entry 0 for cpos and 1 for cneg; give a "
       "ceiling above 0 and not above 2^1000.",
    6: "A start alpha is NaN, below 0 or above its ceiling: the index is its sample; start within 0 and the ceiling.",
    7: "A linear term is NaN or infinite: the index is its sample; give a finite one.",
    8: "The threshold eps is NaN, infinite or has its sign bit set: give 0 or a finite number above it.",
    9: "The parameter nu is NaN, not above 0 or above 1: give a number above 0 and not above 1.",
    10: "The budget is 0 or above 10000000: give 1 to 10000000 passes.",
    11: "Shrinking would have taken more samples out than were active: train with shrinking off, which avoids it.",
    12: "A retired byte is neither 0 nor 1: write 1 for a retired sample, 0 for any other.",
    13: "Shrinking is asked for where samples may be retired: train with shrinking off.",
    14: "The floor of the curvature is NaN, not above 0 or above 1: give a number above 0 and not above 1; the usual one is 1e-10.",
}
NO_VOTES = {
    1: "The number of languages is below 2 or above 12: lend 2 to 12 languages.",
    2: "A list has the wrong length: lend coefficients, as many kernel values and a rho for each pair.",
}
_NEWER = "This refusal is newer than this file: look it up in altuliscia.h."


class Refusal(ValueError):
    """A call that was refused. `number` is that of `enum altuliscia_refusal`, `index` the first offending one for 3 to 7, else 0."""

    __module__ = "altuliscia"

    def __init__(self, number, index, told=None):
        self.number = number
        self.index = index
        self.sentence = told or SENTENCES.get(number, _NEWER)
        place = f" at index {index}" if 3 <= number <= 7 else ""
        super().__init__(f"refusal {number}{place}: {self.sentence}")

    def __reduce__(self):
        return type(self), (self.number, self.index, self.sentence)


class NoVotes(ValueError):
    """Votes that were refused, by numbers of their own: 1 is of languages, 2 of a list's length or of a pair whose coefficients and kernel
    values aren't as many. `number` is that, `index` the place of that pair, counted from 0, else 0."""

    __module__ = "altuliscia"

    def __init__(self, number, index, told=None):
        self.number = number
        self.index = index
        self.sentence = told or NO_VOTES.get(number, _NEWER)
        super().__init__(f"refusal {number}: {self.sentence}")

    def __reduce__(self):
        return type(self), (self.number, self.index, self.sentence)


class Doubtful(UserWarning):
    """What is answered, and shouldn't be used without a second look. Each kind below is one."""

    __module__ = "altuliscia"


class NotReleasable(Doubtful):
    """A fit that isn't to be released: its `unfit` says why."""

    __module__ = "altuliscia"


class InfeasibleNu(Doubtful):
    """A nu for which the smaller class has too few samples: nu*n/2 is above their number. LIBSVM refuses it."""

    __module__ = "altuliscia"


class Asymmetric(Doubtful):
    """A kernel matrix with a value that isn't its mirror's, by more than 1e-6 of the larger of the two and of their samples' own."""

    __module__ = "altuliscia"


class OneCost(Doubtful):
    """A cost of one class where the other class was left at 1."""

    __module__ = "altuliscia"


class AboveCeiling(Doubtful):
    """A weight above the ceiling of its sample, which unequal ceilings allow."""

    __module__ = "altuliscia"


class BelowZero(Doubtful):
    """A weight below 0 before it is signed, which unequal ceilings allow: it speaks for the other class."""

    __module__ = "altuliscia"


class Shrinking(Doubtful):
    """A fit with shrinking on: docs/PROMISES.md says to train with it off."""

    __module__ = "altuliscia"


class NotFinite(Doubtful):
    """A caption that is sorted by a kernel value that isn't finite, or by a sum that isn't: a NaN speaks for the negative class, or the second
    language, whatever the others say."""

    __module__ = "altuliscia"


_OWN = {"altuliscia", "altuliscia_answers", "altuliscia_languages", "altuliscia_sklearn", "altuliscia_trail"}


def warn(kind, words):
    """Warns with the line of who called these modules."""
    level, frame = 1, sys._getframe()
    while frame.f_back is not None and frame.f_globals.get("__name__") in _OWN:
        level, frame = level + 1, frame.f_back
    warnings.warn(words, kind, stacklevel=level)


Votes = namedtuple("Votes", "winner votes ties")
Votes.__module__ = "altuliscia"
Votes.__doc__ = """The votes on a caption. Languages are numbered from 1 on: `winner` is the number of the language with the most votes, of equals
the lowest; `votes` has the votes of each language, that of language 1 first; `ties` the numbers of those that share the most."""


class Fit:
    """The answer of an accepted run. Release it only where `releasable` is true; where it isn't, `unfit` says why.

    Under scikit-learn's names, for two classes as `SVC` has them:

    classes_      the two labels, in their order; the second is positive. Of one class they are -1 and 1
    support_      the samples whose weight isn't zero, in their order (`SVC` lists those of the first class first)
    dual_coef_    one list with their weights, signed by label
    intercept_    one number, -rho
    n_iter_       one number, how many steps were taken
    fit_status_   0 where the run ended at the threshold, 1 where the budget ran out

    Under the library's own names:

    home            each sample's own weight; that of fit_general is without a sign
    coefficients    each sample's own weight, signed by label: what a decision, and `votes`, takes
    crate_reading   the list that the Rust crate linfa-svm answers, or would with this floor and, travelling, with bounds that move along;
                    weights may stand at other samples there
    rho, r, obj     offset, scale of the nu rule (None without it), objective
    support_count   how many weights are above 100*2^-52 in magnitude, as the library counts them; a NaN isn't. support_ also has the
                    smaller ones, which a decision needs
    one_ceiling     whether all samples had one ceiling, so that no weight can be above it or below 0
    above_ceiling   the samples whose weight, before it is signed, is above their ceiling all the same
    below_zero      those whose weight is below 0 before it is signed, so that it then has the other class's sign

    retired_ has the numbers of the retired samples, in their order; their weight is 0.
    """

    __module__ = "altuliscia"
    # What a pickle of an older version hasn't.
    classes_, signs, one_ceiling, above_ceiling, below_zero = [0, 1], None, True, [], []

    def __init__(self, home, crate_reading, rho, r, obj, iterations, reason, retired=(), support=None, *, classes=(0, 1), signs=None,
                 ceilings=None, marks=None):
        self.home = home
        self.crate_reading = crate_reading
        self.rho = rho
        self.r = r
        self.obj = obj
        self.support_count = sum(abs(weight) > SUPPORT_LIMIT for weight in home) if support is None else support
        self.retired_ = list(retired)
        self.classes_ = list(classes)
        # Each sample's label where home isn't signed by it.
        self.signs = signs
        self.support_ = [k for k, weight in enumerate(home) if weight != 0.0]
        weights = self.coefficients
        self.dual_coef_ = [[weights[k] for k in self.support_]]
        self.intercept_ = [0.0 - rho]
        self.n_iter_ = [iterations]
        self.fit_status_ = reason
        self.one_ceiling = ceilings is None
        # The labels that home is signed by, if it is, are taken off.
        bare = home if marks is None else signed(home, marks, ())
        self.above_ceiling = [k for k, ceiling in enumerate(ceilings or ()) if bare[k] > ceiling]
        self.below_zero = [k for k, weight in enumerate(bare) if weight < 0.0 and not self.one_ceiling]

    def __repr__(self):
        unfit = self.unfit
        ceilings = "" if self.one_ceiling else "ceilings differ, "
        return (f"<Fit of {len(self.home)} samples: {self.support_count} support vectors, rho {self.rho!r}, {self.n_iter_[0]} steps, {ceilings}"
                f"{'releasable' if unfit is None else 'not releasable: ' + unfit}>")

    @property
    def coefficients(self):
        """Each sample's own weight, signed by label."""
        return self.home if self.signs is None else signed(self.home, self.signs, self.retired_)

    @property
    def unfit(self):
        """Why it isn't to be released, in words; None where nothing speaks against it."""
        why = []
        if self.fit_status_ == 1:
            why.append(f"the budget ran out after {self.n_iter_[0]} steps")
        elif self.fit_status_ != 0:
            why.append(f"the run ended for the reason {self.fit_status_}, which is newer than this file")
        if not math.isfinite(self.rho):
            why.append(f"rho is {self.rho!r}")
        if self.r is not None and not _divides(self.r):
            why.append(f"r is {self.r!r}" + _undivided(self.r))
        if self.support_count == 0:
            why.append("there is no support vector")
        return "; ".join(why) or None

    @property
    def releasable(self):
        """Whether it may be released: it ended at the threshold, rho is finite, under nu r and 1/r are, too, and above 0, and something
        supports it."""
        return self.unfit is None

    def decision_function(self, rows):
        """For each row, the kernel values of one caption with every training sample: the sum over samples, in their order, of weight,
        signed by label, times value, less rho. From 0 on it is the positive class. A value at a retired sample's place is passed over.
        A matrix of numpy is a list of rows, too, and summed faster, to the same bits; a list is answered either way."""
        stands = [True] * len(self.home)
        for k in self.retired_:
            stands[k] = False
        weights = list(compress(self.coefficients, stands))
        grid = taken.settled(rows)
        if not taken.is_array(grid) or len(grid) == 0:
            return [self._decision(row, weights, stands) for row in grid]
        if grid.ndim != 2:
            raise TypeError("a list of rows is needed, each with the kernel values of one caption")
        self._fits(grid.shape[1])
        decisions = []
        for start in range(0, len(grid), 512):
            columns = sys.modules["numpy"].array(grid[start:start + 512].T, dtype="float64", order="C")
            decisions += self._by_columns(compress(columns, stands), weights, columns.shape[1])
        return decisions

    def _fits(self, count):
        if count != len(self.home):
            raise ValueError(f"a row has {count} kernel values for {len(self.home)} training samples")

    def _decision(self, row, weights, stands):
        if not hasattr(row, "__len__"):
            raise TypeError("a list of rows is needed, each with the kernel values of one caption")
        self._fits(len(row))
        values = row.tolist() if taken.is_array(row) else row
        values = list(compress(values, stands)) if self.retired_ else values
        try:
            total = _sum(weights, values)
        except TypeError:
            total = None
        # Other numbers than Python's own are made doubles first: numpy's float32 would round the sum.
        return (total if type(total) is float else _sum(weights, array("d", list(values)))) - self.rho

    def _by_columns(self, columns, weights, count):
        """The same sums for so many rows at once, a sample after the other: each product and each addition is rounded once."""
        numpy = sys.modules["numpy"]
        total = numpy.zeros(count)
        with numpy.errstate(all="ignore"):
            for weight, column in zip(weights, columns):
                total += weight * column
            return (total - self.rho).tolist()

    def predict(self, rows):
        """The label of each row: that of the positive class where its decision is 0 or above, else, NaN too, the other."""
        negative, positive = self.classes_
        decisions = self.decision_function(rows)
        doubt([k for k, decision in enumerate(decisions) if not math.isfinite(decision)], "the decision on")
        return [positive if decision >= 0 else negative for decision in decisions]

    def score(self, rows, labels):
        """The share of rows that `predict` gives their label."""
        return share(self.predict(rows), labels, self.classes_)


def _divides(r):
    """Whether weights may be divided by r: those of fit_nu, none of which is above 1 before, are then finite and have their class's sign."""
    return 0.0 < r < math.inf and 1.0 / r < math.inf


def _undivided(r):
    """What is wrong with an r that doesn't divide, where its digits don't say it."""
    if not math.isfinite(r) or r == 0.0:
        return ""
    return ", below 0: a weight divided by it has the other class's sign" if r < 0.0 else ", so near 0 that a weight of 1 divided by it is infinite"


def _sum(weights, values):
    """In their order, from +0, each product and each addition rounded once."""
    total = 0.0
    for weight, value in zip(weights, values):
        total += weight * value
    return total


def signed(weights, marks, gone):
    """Negated where a sample is negative. The 0 of a retired one stays as it is."""
    return [x if mark or k in gone else -x for k, (x, mark) in enumerate(zip(weights, marks))]


def doubt(places, what):
    """Warns of rows that are sorted by what isn't finite, where there are some."""
    if places:
        more = f", and {len(places) - 1} more" if len(places) > 1 else ""
        warn(NotFinite, f"{what} row {places[0]}{more}, counted from 0, isn't finite: the label of such a row says nothing")


def share(found, labels, classes):
    """The share of labels that were found."""
    labels = list(labels)
    if len(found) != len(labels) or not labels:
        raise ValueError(f"{len(found)} rows and {len(labels)} labels: as many are needed, and some")
    strange = [label for label in labels if label not in classes]
    if strange:
        raise ValueError(f"the label {strange[0]!r} is none of {classes}, which were trained")
    return sum(mine == label for mine, label in zip(found, labels)) / len(labels)
