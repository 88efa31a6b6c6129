"""Tests of altuliscia_sklearn.py over the shared object, where scikit-learn is installed."""
import doctest
import math
import pickle
import sys
import unittest
from unittest import SkipTest, mock

from altuliscia import NotFinite, NotReleasable, Refusal, fit_c
from altuliscia_languages import fit_languages
from test_doubts import Doubts, warned

try:
    import numpy
    import sklearn
    from sklearn.base import clone
    from sklearn.model_selection import GridSearchCV, cross_val_score
    from sklearn.svm import SVC
    from sklearn.utils.estimator_checks import check_estimator

    import altuliscia_sklearn
    from altuliscia_sklearn import AltulisciaSVC
except ImportError:
    sklearn = None
    print("NOT RUN: the classifier for scikit-learn; it needs scikit-learn (Debian's package python3-sklearn)", file=sys.stderr)


def load_tests(loader, tests, pattern):
    if sklearn:
        tests.addTests(doctest.DocTestSuite(altuliscia_sklearn))
    return tests if sklearn else unittest.TestSuite()


def drawn(classes, n=120, seed=1):
    """A kernel of so many classes, and values of others with the same samples: matrix, classes, rows, their classes."""
    random = numpy.random.RandomState(seed)
    y = numpy.arange(2 * n) % classes
    points = random.randn(2 * n, 4) + 1.5 * random.randn(classes, 4)[y]
    kernel = numpy.exp(-((points[:, None] - points[None, :n]) ** 2).sum(2) / 4)
    return kernel[:n], y[:n], kernel[n:], y[n:]


class Conforms(unittest.TestCase):
    def test_check_estimator(self):
        """All that scikit-learn asks of a classifier, but what can't apply."""
        skipped, passed = {}, 0
        for estimator, check in check_estimator(AltulisciaSVC(), generate_only=True):
            try:
                check(estimator)
                passed += 1
            except SkipTest as reason:
                skipped[check.func.__name__] = str(reason)
        self.assertGreater(passed, 35)
        self.assertIn("12 are the most", skipped.pop("check_estimators_dtypes"))
        # Its last part is of pandas.
        self.assertLessEqual(set(skipped), {"check_classifier_data_not_an_array"})


class Compared(unittest.TestCase):
    """Beside scikit-learn's own, which solves the same problem by other steps."""

    def test_beside_svc(self):
        for classes in (2, 3, 7, 12):
            kernel, y, rows, truth = drawn(classes)
            for labels in (y, numpy.array(["c%02d" % k for k in y])):
                ours = AltulisciaSVC(C=10).fit(kernel, labels)
                theirs = SVC(kernel="precomputed", C=10, tol=1e-7, shrinking=False).fit(kernel, labels)
                self.assertTrue(ours.releasable_ and ours.unfit_ is None)
                for name in ("classes_", "support_", "n_support_", "fit_status_"):
                    numpy.testing.assert_array_equal(getattr(ours, name), getattr(theirs, name), name)
                for name in ("dual_coef_", "intercept_"):
                    numpy.testing.assert_allclose(getattr(ours, name), getattr(theirs, name), atol=1e-4, err_msg=name)
                    self.assertEqual(getattr(ours, name).shape, getattr(theirs, name).shape)
                self.assertEqual(ours.n_iter_.shape, theirs.n_iter_.shape)
                numpy.testing.assert_array_equal(ours.predict(rows), theirs.predict(rows))
                self.assertEqual(ours.score(kernel, labels), theirs.score(kernel, labels))
            if classes == 2:
                numpy.testing.assert_allclose(ours.decision_function(rows), theirs.decision_function(rows), atol=1e-4)

    def test_beside_the_plain_functions(self):
        kernel, y, rows, _ = drawn(2)
        plain = fit_c(kernel, y, C=3.0, eps=1e-3)
        ours = AltulisciaSVC(C=3.0, tol=1e-3).fit(kernel, y)
        self.assertEqual(ours.trained_.home, plain.home)
        self.assertEqual(ours.decision_function(rows).tolist(), plain.decision_function(rows))
        kernel, y, rows, _ = drawn(4)
        ours, plain = AltulisciaSVC().fit(kernel, y), fit_languages(kernel, y)
        self.assertEqual(ours.predict(rows).tolist(), plain.predict(rows))
        self.assertEqual(ours.decision_function(rows).tolist(), [one.votes for one in plain.votes(rows)])


    def test_edge(self):
        trained = AltulisciaSVC().fit(numpy.identity(2), ["a", "b"])
        rows = [[0.0, 0.0], [5e-324, 0.0], [0.0, 5e-324]]
        self.assertEqual(trained.decision_function(rows).tolist(), [0.0, -5e-324, 5e-324])
        self.assertEqual(trained.predict(rows).tolist(), ["b", "a", "b"])


class Used(Doubts):
    def test_in_scikit_learn(self):
        kernel, y, rows, _ = drawn(3)
        trained = clone(AltulisciaSVC(C=2.0, tol=1e-3)).fit(kernel, y)
        back = pickle.loads(pickle.dumps(trained))
        numpy.testing.assert_array_equal(back.predict(rows), trained.predict(rows))
        scores = [cross_val_score(kind, kernel, y, cv=4) for kind in (AltulisciaSVC(C=2.0), SVC(kernel="precomputed", C=2.0, tol=1e-7))]
        numpy.testing.assert_array_equal(*scores)
        search = GridSearchCV(AltulisciaSVC(), {"C": [0.01, 10.0]}, cv=3).fit(kernel, y)
        self.assertEqual(search.best_params_, {"C": 10.0})

    def test_not_releasable(self):
        kernel, y, _, _ = drawn(2)
        trained, words = self.warns([NotReleasable], lambda: AltulisciaSVC(max_iter=3).fit(kernel, y))
        self.assertEqual((trained.releasable_, trained.unfit_, trained.fit_status_), (False, "the budget ran out after 3 steps", 1))
        kernel, y, _, _ = drawn(3)
        trained, words = self.warns([NotReleasable], lambda: AltulisciaSVC(max_iter=3).fit(kernel, y))
        self.assertEqual((trained.releasable_, trained.fit_status_), (False, 1))
        self.assertIn("0 and 1: the budget ran out after 3 steps", words[0])
        self.warns([], lambda: AltulisciaSVC().fit(kernel, y))

    def test_sums_not_finite(self):
        for classes, what in ((2, "the decision on"), (3, "a decision on")):
            kernel, y, rows, _ = drawn(classes, 30)
            trained = AltulisciaSVC(C=10).fit(kernel, y)
            rows = rows[:3].copy()
            rows[1, trained.support_[abs(trained.dual_coef_[0]).argmax()]] = 1.7e308
            _, words = self.warns([NotFinite], lambda: trained.predict(rows))
            self.assertEqual(words, [f"{what} row 1, counted from 0, isn't finite: the label of such a row says nothing"])
            self.warns([], lambda: trained.predict(rows[:1]))

    def test_refused(self):
        kernel, y, _, _ = drawn(2, 20)
        for options, given, kind, words in (
            ({"kernel": "rbf"}, (kernel, y), ValueError, "kernel is 'rbf', and only 'precomputed' is here"),
            ({}, (kernel[:, :5], y), ValueError, "a precomputed kernel is a square matrix, not 20x5"),
            ({}, (kernel, y * 0), ValueError, "2 to 12 classes are trained, and y has 1 class"),
            ({}, (kernel, numpy.arange(20)), ValueError, "2 to 12 classes are trained, and y has 20 classes"),
            ({}, (kernel * math.inf, y), ValueError, ""),
            ({"C": -1.0}, (kernel, y), Refusal, "C is -1.0: a ceiling is above 0"),
            ({"tol": -1.0}, (kernel, y), Refusal, "eps (tol) is -1.0"),
            ({"max_iter": 0}, (kernel, y), Refusal, "budget (max_iter) is 0"),
            ({"C": None}, (kernel, y), ValueError, "C is None: give a number"),
            ({"max_iter": None}, (kernel, y), ValueError, "max_iter is None: give a number"),
            ({"C": "x"}, (kernel, y), TypeError, "a double is needed, not 'x'"),
        ):
            with self.assertRaises(kind) as caught:
                AltulisciaSVC(**options).fit(*given)
            self.assertIn(words, str(caught.exception))
        trained = AltulisciaSVC().fit(kernel, y)
        with self.assertRaises(ValueError):
            trained.predict(kernel[:, :5])

    def test_what_cannot_decide(self):
        kernel, y, _, _ = drawn(2, 4)
        nothing, _ = warned(lambda: fit_c(kernel, y, retired=[0, 1, 2, 3]))
        with mock.patch("altuliscia.fit_c", return_value=nothing), self.assertRaises(ValueError) as caught:
            AltulisciaSVC().fit(kernel, y)
        self.assertEqual(str(caught.exception), "what was trained can't decide: rho is nan; there is no support vector")


if __name__ == "__main__":
    unittest.main()
