"""Altuliscia as a classifier of scikit-learn, for 2 to 12 classes on a precomputed kernel: what `SVC(kernel="precomputed")` is there. This
module needs scikit-learn (tested with 1.2.1), so it is imported by itself.

    >>> from altuliscia_sklearn import AltulisciaSVC
    >>> import numpy
    >>> kernel = numpy.array([[2.0, 1.0, 0.0], [1.0, 2.0, 0.0], [0.0, 0.0, 2.0]])
    >>> trained = AltulisciaSVC(C=10).fit(kernel, ["no", "no", "yes"])
    >>> trained.predict(kernel).tolist(), trained.releasable_
    (['no', 'no', 'yes'], True)

It says that it is pairwise, so cross-validation cuts the matrix by rows and columns. Kernels aren't here: sklearn.metrics.pairwise has them.
There are no probabilities, and no weights of samples or classes. For nu there are altuliscia.fit_nu and fit_languages(.., nu=).
"""
import math

import numpy
from sklearn.base import BaseEstimator, ClassifierMixin
from sklearn.utils.multiclass import check_classification_targets
from sklearn.utils.validation import check_is_fitted

import altuliscia
from altuliscia_answers import doubt
from altuliscia_languages import fit_languages


class AltulisciaSVC(ClassifierMixin, BaseEstimator):
    """Two to twelve classes with a cost.

    C           the ceiling of every sample
    kernel      "precomputed": fit takes the kernel values of the samples with each other, predict those of new ones with these
    tol         the run ends where no pair breaks the conditions by this much; 1e-7 as in altuliscia.fit_c (`SVC` has 1e-3)
    shrinking   whether samples that seem settled are put aside (`SVC` does it unless told not to)
    max_iter    the most passes, 1 to 10000000; -1 is 10000000
    floor       stands for a curvature that isn't above 0

    After fit, as `SVC` has it: classes_, support_ (those of the first class first), n_support_, dual_coef_, intercept_, n_iter_,
    fit_status_, n_features_in_. And of Altuliscia:

    releasable_   whether what was trained may be released; where it may not, unfit_ says why, and fit warned. Where rho isn't finite
                  fit raises a ValueError
    trained_      the altuliscia.Fit of two classes, or the altuliscia_languages.Sorter of more; there a class is its place in classes_

    Of two classes decision_function is that of the Fit, positive for the second; of more it has the votes of each class. Of equal votes
    the first class wins.
    """

    def __init__(self, C=1.0, *, kernel="precomputed", tol=1e-7, shrinking=False, max_iter=-1, floor=altuliscia.USUAL_FLOOR):
        self.C = C
        self.kernel = kernel
        self.tol = tol
        self.shrinking = shrinking
        self.max_iter = max_iter
        self.floor = floor

    def fit(self, X, y):
        """Trains; X has the kernel values of all samples with each other, y their classes."""
        if self.kernel != "precomputed":
            raise ValueError(f"kernel is {self.kernel!r}, and only 'precomputed' is here: make the matrix by sklearn.metrics.pairwise, say")
        missing = [name for name in ("C", "tol", "max_iter") if getattr(self, name) is None]
        if missing:
            raise ValueError(f"{missing[0]} is None: give a number")
        X, y = self._validate_data(X, y, dtype=numpy.float64)
        check_classification_targets(y)
        self.classes_, codes = numpy.unique(y, return_inverse=True)
        count = len(self.classes_)
        if not 2 <= count <= altuliscia.MOST_LANGUAGES:
            raise ValueError(f"2 to {altuliscia.MOST_LANGUAGES} classes are trained, and y has {count} class{'es' * (count > 1)}")
        if X.shape[0] != X.shape[1]:
            raise ValueError(f"a precomputed kernel is a square matrix, not {X.shape[0]}x{X.shape[1]}")
        train = altuliscia.fit_c if count == 2 else fit_languages
        self.trained_ = train(X, codes, C=self.C, tol=self.tol, shrinking=self.shrinking, max_iter=self.max_iter, floor=self.floor)
        self.releasable_, self.unfit_ = self.trained_.releasable, self.trained_.unfit
        fits, samples = ([self.trained_], [range(len(codes))]) if count == 2 else (self.trained_.fits, self.trained_.samples)
        if not all(math.isfinite(fit.rho) for fit in fits):
            raise ValueError(f"what was trained can't decide: {self.unfit_}")
        self._tell(codes, fits, samples)
        return self

    def _tell(self, codes, fits, samples):
        """Sets scikit-learn's attributes."""
        rows = numpy.zeros((len(self.classes_) - 1, len(codes)))
        for (i, j), fit, numbers in zip(altuliscia.pairs(len(self.classes_)), fits, samples):
            for number, weight in zip(numbers, fit.coefficients):
                # As LIBSVM has it: a sample has a row for each class but its own.
                rows[j - 2 if codes[number] == i - 1 else i - 1, number] = weight
        kept = (rows != 0).any(axis=0)
        self.support_ = numpy.array([k for k in numpy.argsort(codes, kind="stable") if kept[k]], dtype=numpy.int32)
        self.n_support_ = numpy.bincount(codes[self.support_], minlength=len(self.classes_)).astype(numpy.int32)
        self.dual_coef_ = rows[:, self.support_]
        self.intercept_ = numpy.array([fit.intercept_[0] for fit in fits])
        self.n_iter_ = numpy.array([fit.n_iter_[0] for fit in fits], dtype=numpy.int32)
        self.fit_status_ = int(any(fit.fit_status_ for fit in fits))

    def decision_function(self, X):
        """The decision on each row of X, or of more than two classes the votes of each."""
        check_is_fitted(self)
        X = self._validate_data(X, dtype=numpy.float64, reset=False)
        if len(self.classes_) == 2:
            return numpy.array(self.trained_.decision_function(X))
        return numpy.array([one.votes for one in self.trained_.votes(X)], dtype=numpy.float64)

    def predict(self, X):
        """The class of each row of X."""
        found = self.decision_function(X)
        if found.ndim == 1:
            doubt(numpy.flatnonzero(~numpy.isfinite(found)).tolist(), "the decision on")
        return self.classes_[(found >= 0).astype(int) if found.ndim == 1 else found.argmax(axis=1)]

    def _more_tags(self):
        return {"pairwise": True, "_xfail_checks": {"check_estimators_dtypes": "its labels are of 13 classes, and 12 are the most"}}
