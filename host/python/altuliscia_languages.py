"""A sorter of 2 to 12 languages, or classes, out of one kernel matrix and one list of labels: each two are trained by themselves, on their
part of the matrix, and on something new each of these pairs votes for one of its two (docs/SORTING.md).

    >>> from altuliscia_languages import fit_languages
    >>> labels = ["de", "it", "fi", "de", "it", "fi"]
    >>> matrix = [[float(one == other) for other in labels] for one in labels]
    >>> sorter = fit_languages(matrix, labels, C=10, retired=[3])
    >>> sorter
    <Sorter of 3 languages: 'de', 'fi', 'it'; 6 samples, 1 retired; 3 pairs, releasable>
    >>> rows = [[0.5, 0.75, 0.25, None, 0.75, 0.25], [1.0, 0.5, 0.5, None, 0.5, 0.5]]
    >>> sorter.predict(rows)
    ['it', 'de']
    >>> sorter.votes(rows[:1])
    [Votes(winner=3, votes=[1, 0, 2], ties=[3])]
    >>> sorter.weights(0)
    {('de', 'fi'): 1.0, ('de', 'it'): 1.0}

A sample's number is its place in the matrix, from 0 on, and it keeps it in every pair.
"""
import math
import numbers
import operator
from array import array
from itertools import combinations

import altuliscia
import altuliscia_taken as taken
from altuliscia import _EPS, _PASSES, MOST_LANGUAGES, USUAL_FLOOR, InfeasibleNu, NotReleasable, Refusal
from altuliscia_answers import doubt, share, warn


def fit_languages(matrix, labels, C=None, *, nu=None, languages=None, retired=None, eps=_EPS, shrinking=False, budget=_PASSES,
                  floor=USUAL_FLOOR, tol=None, max_iter=None, travelling=False):
    """Trains each two of 2 to 12 languages; answers a Sorter.

    matrix      the kernel values of all samples with each other. There may be more than 512: a pair has at most that many
    labels      the language of each sample
    C           the ceiling of every sample, 1 where neither it nor nu is given
    nu          in place of C; then nobody can be retired
    languages   the labels in the order in which of equal votes the first wins; else they are sorted

    A pair has its two languages' samples in the matrix's order, the first language positive. What is refused of a pair is refused of all,
    by the same number. Every ceiling is the same, so `travelling` must be off. For the rest see altuliscia.fit_c."""
    altuliscia._alike(travelling, "the same")
    options = altuliscia._options(eps, tol, shrinking, budget, max_iter, floor)
    whole = _Whole(matrix, labels, retired, languages)
    if nu is not None and (C is not None or whole.gone):
        raise TypeError("nu is given in place of C, and nobody can be retired with it")
    parts = [_Part(whole, *two) for two in combinations(whole.classes, 2)]
    for part in parts if nu is not None else ():
        words = altuliscia._infeasible(part, nu)
        if words:
            warn(InfeasibleNu, f"{part.named()}: {words}")
    cost = ("C", 1.0 if C is None else C)
    fits = [altuliscia._fit_c(part, (cost, cost), options) if nu is None else altuliscia._fit_nu(part, nu, options) for part in parts]
    altuliscia._mirrored(whole)
    altuliscia._shrunk(options)
    sorter = Sorter(whole, parts, fits)
    if not sorter.releasable:
        warn(NotReleasable, f"this sorter isn't to be released: {sorter.unfit}")
    return sorter


class _Whole:
    """All samples of all languages."""

    def __init__(self, matrix, labels, retired, languages):
        self.labels = [taken.plain(label) for label in taken.unmasked(labels)]
        self.n = len(self.labels)
        self.gone = taken.retired(retired, self.n)
        for k, label in enumerate(self.labels):
            if isinstance(label, numbers.Number) and not taken.whole(label):
                raise Refusal(4, k, f"the label of sample {k} is {label!r:.40}: whole numbers are taken, or strings")
        self.classes = taken.in_order(set(self.labels)) if languages is None else [taken.plain(label) for label in languages]
        strange = [label for label in self.labels if label not in self.classes]
        missing = [label for label in self.classes if label not in self.labels]
        if strange or missing or len(set(self.classes)) != len(self.classes):
            wrong = f"{strange[0]!r} is none of them" if strange else f"nothing has the label {missing[0]!r}" if missing else "one is given twice"
            raise ValueError(f"languages are all labels, each once: {wrong}")
        if not 2 <= len(self.classes) <= MOST_LANGUAGES:
            raise ValueError(f"2 to {MOST_LANGUAGES} languages are sorted, not {len(self.classes)}")
        self.kernel, size = taken.matrix(matrix, self.n)
        if len(self.kernel) != 8 * self.n * self.n:
            raise Refusal(2, 0, f"matrix is {size}, needs {self.n}x{self.n}")
        self.values = array("d", self.kernel)

    def column(self, number):
        return self.values[number * self.n:(number + 1) * self.n]


class _Part(taken.Problem):
    """What is to be trained of two languages."""

    def __init__(self, whole, first, second):
        self.whole, self.two = whole, (first, second)
        self.numbers = [k for k, label in enumerate(whole.labels) if label in self.two]
        self.marks = bytes(whole.labels[k] == first for k in self.numbers)
        # The positive one is the second of a fit's classes.
        self.classes, self.n, self.lists = [second, first], len(self.numbers), {}
        self.gone = {place for place, k in enumerate(self.numbers) if k in whole.gone}
        pick = operator.itemgetter(*self.numbers)
        self.kernel = b"".join(array("d", pick(whole.column(k))).tobytes() for k in self.numbers)

    def named(self):
        return f"{self.two[0]!r} and {self.two[1]!r}"

    def _refusal_1(self, index, said):
        return f"{self.named()} have {self.n} samples: two languages may have 512 together"

    def number(self, place):
        return self.numbers[place]

    def index(self, refusal, index):
        column, row = map(self.number, divmod(index, self.n)) if refusal == 3 else (0, index)
        return column * self.whole.n + row


class Sorter:
    """Trained pairs of languages. Release it only where `releasable` is true; where it isn't, `unfit` says why.

    classes_   the languages, by their labels, in the order in which of equal votes the first wins
    pairs      each two of them, in the order of altuliscia.pairs
    fits       the Fit of each pair; its place k is the sample `samples` has at k. Its positive class is the pair's first language
    samples    of each pair the numbers of its samples, retired ones too
    retired_   the numbers of the retired samples, in their order
    """

    def __init__(self, whole, parts, fits):
        self.classes_, self.retired_, self.n_samples = whole.classes, sorted(whole.gone), whole.n
        self.pairs, self.samples, self.fits = [part.two for part in parts], [part.numbers for part in parts], fits

    def __repr__(self):
        names, unfit = ", ".join(map(repr, self.classes_)), self.unfit
        return (f"<Sorter of {len(self.classes_)} languages: {names}; {self.n_samples} samples, {len(self.retired_)} retired; {len(self.fits)} "
                f"pairs, {'releasable' if unfit is None else 'not releasable: ' + unfit}>")

    @property
    def unfit(self):
        """Why it isn't to be released, in words; None where nothing speaks against it."""
        why = [f"{first!r} and {second!r}: {fit.unfit}" for (first, second), fit in zip(self.pairs, self.fits) if fit.unfit]
        more = f"; and {len(why) - 3} more pairs" if len(why) > 3 else ""
        return "; ".join(why[:3]) + more if why else None

    @property
    def releasable(self):
        """Whether it may be released: every pair may."""
        return self.unfit is None

    def votes(self, rows):
        """The Votes on each row, the kernel values of one caption with every sample of the matrix. The number k of a language is that of
        classes_[k - 1]. A value at a retired sample's place is passed over."""
        gone = set(self.retired_)
        lent = [self._row(row, gone) for row in taken.rows(rows)]
        coefficients, rhos = [fit.coefficients for fit in self.fits], [fit.rho for fit in self.fits]
        found = altuliscia.votes_of_rows(len(self.classes_), coefficients, self.samples, rhos, lent)
        self._doubt([array("d", taken.doubles(row)) for row in lent])
        return found

    def _doubt(self, rows):
        """Warns of rows with a value that isn't finite, and of others with a sum that isn't."""
        finite = [all(map(math.isfinite, row)) for row in rows]
        doubt([k for k, fine in enumerate(finite) if not fine], "a kernel value of")
        weight, offset = sum(abs(x) for fit in self.fits for x in fit.coefficients), sum(abs(fit.rho) for fit in self.fits)

        def decides(row):
            # No decision is larger than this. Where it may be near the largest double, or is NaN, each is formed again.
            if weight * max(map(abs, row)) + offset < 1e308:
                return True
            pairs = zip(self.fits, self.samples)
            return all(math.isfinite(fit.decision_function([[row[k] for k in numbers]])[0]) for fit, numbers in pairs)

        doubt([k for k, row in enumerate(rows) if finite[k] and not decides(row)], "a decision on")

    def _row(self, row, gone):
        if not hasattr(row, "__len__"):
            raise TypeError("a list of rows is needed, each with the kernel values of one caption")
        if len(row) != self.n_samples:
            raise ValueError(f"a row has {len(row)} kernel values for {self.n_samples} training samples")
        # A retired sample has the weight 0.
        return [0.0 if k in gone else value for k, value in enumerate(row)] if gone else row

    def predict(self, rows):
        """The language of each row, by the most votes; of equals the one that comes first in classes_."""
        return [self.classes_[one.winner - 1] for one in self.votes(rows)]

    def score(self, rows, labels):
        """The share of rows that `predict` gives their label."""
        return share(self.predict(rows), labels, self.classes_)

    def weights(self, sample):
        """The weight of a sample in each pair that it is in, by the pair: positive where it is of the pair's first language."""
        number = taken.place(sample)
        if number >= self.n_samples:
            raise ValueError(f"there is no sample {number}: n is {self.n_samples}, and samples are counted from 0")
        found = zip(self.pairs, self.fits, self.samples)
        return {two: fit.coefficients[numbers.index(number)] for two, fit, numbers in found if number in numbers}
