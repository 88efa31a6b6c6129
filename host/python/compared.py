#!/usr/bin/env python3
"""scikit-learn's rows of 'One training by each' and 'A withdrawn sample' in docs/COMPARED.md, and our own: on captions, then on the drawn problem.

    cd host && cargo run -p captions -- libsvm ../captions/cs-sk.txt target/cs-sk
    python3 python/compared.py target/cs-sk

It needs numpy, scikit-learn and the library as a shared object (altuliscia.py says how it is made)."""
import sys

import numpy
from sklearn.svm import SVC

import altuliscia


def read(name):
    """Labels and kernel values of LIBSVM's text for a precomputed kernel."""
    with open(name, encoding="utf-8") as file:
        rows = [line.split() for line in file]
    return numpy.array([int(row[0]) for row in rows]), numpy.array([[float(word.split(":")[1]) for word in row[2:]] for row in rows])


def theirs(kernel, labels, tol, shrinking):
    """The trained classifier, and each sample's weight."""
    trained = SVC(kernel="precomputed", C=10, tol=tol, shrinking=shrinking).fit(kernel, labels)
    weights = numpy.zeros(len(labels))
    weights[trained.support_] = trained.dual_coef_[0]
    return trained, weights


def ours(kernel, labels, eps, shrinking):
    positive = labels == labels.max()
    return altuliscia.fit_c(kernel.T.tolist(), positive.tolist(), 10, 10, eps=eps, shrinking=shrinking)


def on_captions(prefix):
    labels, kernel = read(prefix + ".train")
    held, values = read(prefix + ".held")
    weights = []
    for shrinking in (False, True):
        trained, each = theirs(kernel, labels, 1e-7, shrinking)
        weights.append(numpy.append(each, trained.intercept_))
        fit = ours(kernel, labels, 1e-7, shrinking)
        decided = numpy.array(fit.decision_function(values.tolist())) >= 0
        right = (trained.predict(values) == held).sum(), (decided == (held == labels.max())).sum()
        print(f"captions, shrinking {shrinking}: scikit-learn sorts {right[0]} rightly, Altuliscia {right[1]}")
    print(f"captions: shrinking changes a weight or the intercept of scikit-learn's by {abs(weights[1] - weights[0]).max():.2g}")


def withdrawn(prefix, number):
    """One caption withdrawn, by its number from 0 on: a weight of 0 there, retired here, and taken out by hand."""
    labels, kernel = read(prefix + ".train")
    held, values = read(prefix + ".held")
    stand = [k for k in range(len(labels)) if k != number]
    without = SVC(kernel="precomputed", C=10, tol=1e-7, shrinking=False).fit(kernel[numpy.ix_(stand, stand)], labels[stand])
    weights = numpy.ones(len(labels))
    weights[number] = 0
    zero = SVC(kernel="precomputed", C=10, tol=1e-7, shrinking=False).fit(kernel, labels, sample_weight=weights)
    fit = altuliscia.fit_c(kernel.T.tolist(), (labels == labels.max()).tolist(), 10, 10, retired=[number])
    support = [stand[k] for k in without.support_]
    right = [(zero.predict(values) == held).sum(), (without.predict(values[:, stand]) == held).sum()]
    right.append(((numpy.array(fit.decision_function(values.tolist())) >= 0) == (held == labels.max())).sum())
    print(f"caption {number} withdrawn, rightly sorted: scikit-learn with weight 0 {right[0]}, taken out {right[1]}, Altuliscia retired {right[2]}")
    same = numpy.array_equal(zero.dual_coef_, without.dual_coef_)
    print(f"weights of scikit-learn's those of the training without it: {same}; numbers beside them that are another caption's: "
          f"{(zero.support_ != support).sum()} of {len(support)}, Altuliscia {len(set(fit.support_) ^ set(support))} of {len(fit.support_)}")


def drawn():
    random = numpy.random.RandomState(1)
    points = random.randn(400, 5)
    labels = points[:, 0] + 0.8 * random.randn(400) > 0
    kernel = numpy.exp(-((points[:, None] - points[None]) ** 2).sum(2) / 5)
    for tol in (0.001, 1e-7):
        off, on = (theirs(kernel, labels, tol, shrinking)[1] for shrinking in (False, True))
        home_off, home_on = (numpy.array(ours(kernel, labels, tol, shrinking).home) for shrinking in (False, True))
        print(f"drawn, threshold {tol}: shrinking changes a weight of scikit-learn's by {abs(on - off).max():.2g}, of Altuliscia's by {abs(home_on - home_off).max():.3g}")


if len(sys.argv) != 2:
    sys.exit(__doc__)
on_captions(sys.argv[1])
withdrawn(sys.argv[1], 19)
drawn()
