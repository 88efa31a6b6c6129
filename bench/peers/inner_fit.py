"""scikit-learn's inner fit: one answer a line, the nanoseconds of `_libsvm.fit` alone and its passes.

open FILE                     n in eight bytes, the matrix in 8*n*n, the labels in n
fit TYPE C NU EPS SHRINKING   TYPE is LIBSVM's number of the task
"""
import sys
import time

import numpy as np
import sklearn
from sklearn.svm import _libsvm

_libsvm.set_verbosity_wrap(0)
print(sklearn.__version__, flush=True)
matrix = labels = None
for line in sys.stdin:
    words = line.split()
    if words[0] == "open":
        with open(line[5:].rstrip("\n"), "rb") as file:
            n = int(np.fromfile(file, "<u8", 1)[0])
            # column after column: entry (c, r) of this array is column c, row r
            matrix = np.fromfile(file, "<f8", n * n).reshape(n, n)
            labels = np.where(np.fromfile(file, "u1", n) == 1, 1.0, 0.0)
        continue
    kind, c, nu, eps, shrinking = int(words[1]), *map(float, words[2:5]), int(words[5])
    given = dict(svm_type=kind, kernel="precomputed", C=c, nu=nu, tol=eps, shrinking=shrinking, cache_size=400.0)
    # read once beforehand, as each of the others does
    matrix.sum()
    begun = time.perf_counter_ns()
    fitted = _libsvm.fit(matrix, labels, **given)
    taken = time.perf_counter_ns() - begun
    print(taken, int(fitted[-1][0]), flush=True)
