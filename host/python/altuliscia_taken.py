"""What altuliscia.py takes in: labels, matrices, lists and sample numbers as the bytes that the library is lent, and what is wrong with
them in the words of who called. Neither the library nor numpy is needed; where a caller has numpy, its arrays are taken."""
import numbers
import operator
import struct
import sys
from array import array


class Usual:
    """A mixin of numbers that stand for 'not given'."""


class UsualFloat(Usual, float):
    """The double that a parameter has where it isn't given."""


class UsualInt(Usual, int):
    """The whole number that a parameter has where it isn't given."""


def either(name, value, synonym, other):
    """The value of a parameter that has two names."""
    if other is None:
        return value
    if not isinstance(value, Usual):
        raise TypeError(f"{name} and {synonym} are two names of one thing: give one of them")
    return other


def passes(budget, max_iter, most):
    """The budget, or max_iter, whose -1 is 'no limit' in scikit-learn and here the most that there may be."""
    if max_iter is not None and operator.index(max_iter) == -1:
        max_iter = most
    return operator.index(either("budget", budget, "max_iter", max_iter))


def double(number):
    """The eight bytes of a double."""
    try:
        return struct.pack("<d", number)
    except struct.error:
        raise TypeError(f"a double is needed, not {number!r:.40}") from None


def flag(name, given):
    """Whether something is on: a bool, of numpy too, or 0 or 1. Any other text or list would be on, whatever it says."""
    # numpy's bool is bool_ in its older versions
    if type(given).__name__ not in ("bool", "bool_"):
        try:
            found = operator.index(given)
        except TypeError:
            found = None
        if found not in (0, 1):
            raise TypeError(f"{name} is True or False, not {given!r:.40}")
    return bool(given)


def unmasked(given):
    """What is given, where it isn't a masked array: that would be taken for the numbers under its mask."""
    if hasattr(given, "mask") and hasattr(given, "filled"):
        raise TypeError("numbers are needed one by one, not a masked array: give its filled(..) with numbers that you choose, or its data")
    return given


def labels(given):
    """The labels as bytes, and the two classes, of which the second is positive: 0 and 1, else the two that are there, in their order.
    Where numbers can't be labels, those that are neither 0 nor 1 are lent as 2, which the library refuses."""
    marks = [plain(mark) for mark in given]
    try:
        found = set(marks)
    except TypeError:
        raise TypeError("labels are wanted one by one: numbers or strings, no lists") from None
    if found <= {0, 1}:
        kind = bool if found and all(type(mark) is bool for mark in marks) else int
        return bytes(map(int, marks)), [kind(0), kind(1)]
    numeric = all(isinstance(mark, numbers.Number) for mark in found)
    if numeric and not (len(found) == 2 and all(map(whole, found))):
        return bytes(int(mark) if mark in (0, 1) else 2 for mark in marks), [0, 1]
    classes = in_order(found)
    if len(classes) != 2:
        told = "all are the same" if len(classes) == 1 else f"here are {len(classes)} (altuliscia_languages sorts up to 12)"
        raise ValueError(f"two different labels are needed, and {told}: {', '.join(map(repr, classes[:3]))}{', ..' * (len(classes) > 3)}")
    return bytes(mark == classes[1] for mark in marks), classes


def plain(mark):
    """A number of numpy as Python's own."""
    if not hasattr(mark, "dtype"):
        return mark
    try:
        return mark.item()
    except ValueError:
        raise TypeError("labels are wanted one by one: numbers or strings, no lists") from None


def whole(mark):
    try:
        return int(mark) == mark
    except (TypeError, ValueError, OverflowError):
        return False


def in_order(found):
    if None not in found:
        try:
            return sorted(found)
        except TypeError:
            pass
    raise TypeError(f"labels are whole numbers or strings, not {' and '.join(sorted(map(repr, found))):.60}")


def retired(given, n):
    """The retired samples' numbers, as a set. Bytes and bools are no numbers here but a mask."""
    if given is None:
        return set()
    if isinstance(given, (bytes, bytearray)) or not hasattr(given, "__iter__"):
        raise TypeError(f"a list of sample numbers is wanted as retired, not {given!r:.40}")
    found = set()
    for number in given:
        k = _sample(number)
        if not 0 <= k < n:
            raise ValueError(f"sample {k} can't be retired: n is {n}, and samples are counted from 0")
        if k in found:
            raise ValueError(f"sample {k} is retired twice: sample numbers are wanted, each once, not a mask")
        found.add(k)
    return found


def _sample(number):
    # numpy's bool is bool_ in its older versions
    if type(number).__name__ not in ("bool", "bool_"):
        try:
            return operator.index(number)
        except TypeError:
            pass
    raise TypeError(f"sample numbers are wanted as retired, not {number!r:.40}")


def place(number):
    """The place of a sample in a row."""
    found = operator.index(number)
    if found < 0:
        raise ValueError(f"there is no sample {found}: they are counted from 0")
    return found


def settled(given):
    """What is an array of numpy, or gives one as a data frame does, as that array, of Python's objects as lists; all else as it is."""
    numpy = sys.modules.get("numpy")
    unmasked(given)
    if hasattr(given, "toarray"):
        raise TypeError("numbers are needed one by one, not a sparse matrix: give its toarray()")
    if numpy is None or not hasattr(given, "__array__"):
        return given
    found = numpy.asarray(given)
    if found.dtype.kind not in "fiubO":
        raise TypeError(f"real numbers are needed, not an array of {found.dtype}")
    return found.tolist() if found.dtype.kind == "O" else found


def is_array(given):
    """Whether what is settled is an array of numpy."""
    return hasattr(given, "dtype")


def _in_memory(given):
    """What lies in memory, as a view of doubles, or of bytes that are a list of doubles; all else as lists."""
    given = settled(given)
    if is_array(given) and (given.ndim > 1 or given.dtype.itemsize > 1 or given.dtype.kind == "b"):
        given = sys.modules["numpy"].ascontiguousarray(given, dtype="<f8")
    try:
        view = memoryview(given)
    except TypeError:
        return given
    if view.format in ("d", "<d", "B", "b", "c"):
        return view
    try:
        return view.tolist()
    except NotImplementedError:
        raise TypeError(f"doubles or bytes are needed, not what has the format {view.format!r}") from None


def doubles(given):
    """The bytes of a list of doubles."""
    seen = _in_memory(given)
    return seen.tobytes() if isinstance(seen, memoryview) else array("d", seen).tobytes()


def rows(given):
    """Rows of numbers; those of a matrix of numpy as doubles, so that none is mistaken for bytes."""
    found = settled(given)
    return found.astype("float64") if is_array(found) and found.ndim == 2 else found


def columns(given):
    """How many columns a matrix has."""
    seen = _in_memory(given)
    flat = seen.ndim != 2 if isinstance(seen, memoryview) else len(seen) > 0 and not _in_columns(seen)
    if flat:
        raise ValueError("a list of columns is needed; a matrix that isn't in columns (bytes, a flat list) needs n beside it")
    return len(seen)


def _in_columns(given):
    return any(hasattr(column, "__len__") for column in given)


def matrix(given, n):
    """The bytes of a matrix, and its size in words. One in columns that aren't n times n is lent as no bytes at all, so that it is
    refused for its length even where it has n * n numbers."""
    seen = _in_memory(given)
    if isinstance(seen, memoryview):
        size = "x".join(map(str, seen.shape)) if seen.ndim > 1 else f"{seen.nbytes // 8} numbers in {seen.nbytes} bytes"
        return seen.tobytes() if seen.ndim == 1 or seen.shape == (n, n) else b"", size
    found = list(seen)
    if not _in_columns(found):
        return doubles(found), f"{len(found)} numbers"
    lengths = [len(column) if hasattr(column, "__len__") else 1 for column in found]
    size = f"{len(found)}x{lengths[0]}" if len(set(lengths)) == 1 else f"{len(found)} columns of {min(lengths)} to {max(lengths)} numbers"
    if len(found) != n or set(lengths) != {n} or not all(hasattr(column, "__len__") for column in found):
        return b"", size
    return b"".join(array("d", column if type(column) is list else list(column)).tobytes() for column in found), size


def unlike(kernel, n, gone=()):
    """Column and row of a kernel value that isn't its mirror's by more than rounding, of single precision too, and the two values; None
    where there is none. Retired samples have no say."""
    values = array("d", kernel)
    for c in range(n):
        # From the diagonal on, down the column and along the row.
        column, row = values[c * n + c:(c + 1) * n], values[c * n + c::n]
        if c in gone or column.tobytes() == row.tobytes() or max(map(abs, map(operator.sub, column, row))) <= 1e-6 * abs(column[0]):
            continue
        for r, (x, y) in enumerate(zip(column, row), c):
            if x != y and r not in gone and abs(x - y) > 1e-6 * max(abs(x), abs(y), abs(column[0]), abs(values[r * n + r])):
                return c, r, x, y
    return None


class Problem:
    """What is to be trained: as the library is lent it, and as it was given, for the words of a refusal. Without labels it is of one class."""

    def __init__(self, given, marks=None, gone=None, n=None, **lists):
        if marks is None:
            self.given_labels, self.marks, self.classes = None, None, [-1, 1]
            self.n = columns(given) if n is None else operator.index(n)
        else:
            self.given_labels = [plain(mark) for mark in unmasked(marks)]
            self.marks, self.classes = labels(self.given_labels)
            self.n = len(self.marks)
        self.gone = retired(gone, self.n)
        self.kernel, self.size = matrix(given, self.n)
        self.lists = {name: doubles(numbers) for name, numbers in lists.items()}

    def number(self, place):
        """The number by which the caller knows the sample at that place."""
        return place

    def index(self, refusal, index):
        """The index of a refusal, in what the caller gave."""
        return index

    def lent(self):
        """The lists that each way to train is lent first."""
        return (self.kernel,) if self.marks is None else (self.kernel, self.marks)

    def told(self, number, index, said):
        """What is wrong, where the library refuses with that number; None where its own words are as good. `said` has the settings by
        their names; `costs` among them is two names with their values."""
        words = getattr(self, f"_refusal_{number}", None)
        if words:
            return words(index, said)
        name, needed = _SETTINGS.get(number, (None, None))
        return f"{name} is {said[name.split()[0]]!r:.40}: {needed}" if name else None

    def _refusal_1(self, index, said):
        return f"there are {self.n} samples: give 1 to 512"

    def _refusal_2(self, index, said):
        if len(self.kernel) != 8 * self.n * self.n:
            return f"matrix is {self.size}, needs {self.n}x{self.n}" + (f": there are {self.n} labels" if self.marks is not None else "")
        wrong = [(name, len(held) / 8) for name, held in self.lists.items() if len(held) != 8 * self.n]
        if wrong or not said.get("travelling"):
            return f"{wrong[0][0]} has {wrong[0][1]:g} numbers, needs {self.n}" if wrong else None
        return ("travelling is on and samples are retired: train with travelling off; nothing moves there" if self.gone else
                "travelling is on, and this library doesn't know it: 1.6.0 and later ones do")

    def _refusal_3(self, index, said):
        column, row = map(self.number, divmod(index, self.n))
        value = array("d", self.kernel)[index]
        return (f"the kernel value in column {column}, row {row} is {value!r}: finite ones up to 2^1000 in magnitude are taken; scale the "
                "kernel down or mend that entry")

    def _refusal_4(self, index, said):
        kinds = len(set(self.given_labels))
        more = (f"; here are {kinds} different ones" if kinds > 2 else "") + (", and altuliscia_languages sorts up to 12" if 2 < kinds < 13 else "")
        return f"the label of sample {index} is {self.given_labels[index]!r:.40}: 0 and 1 are taken, or two whole numbers, or two strings{more}"

    def _refusal_5(self, index, said):
        name, value = said["costs"][index] if "costs" in said else (f"ceiling {index}", self._number("ceilings", index))
        return f"{name} is {value!r:.40}: a ceiling is above 0 and at most 2^1000"

    def _refusal_6(self, index, said):
        alpha, ceiling = (self._number(name, index) for name in ("alphas", "ceilings"))
        return f"start alpha {index} is {alpha!r} and its ceiling {ceiling!r}: start within 0 and the ceiling"

    def _refusal_7(self, index, said):
        return f"linear term {index} is {self._number('linear', index)!r}: give a finite one"

    def _refusal_13(self, index, said):
        return "shrinking is on and samples are retired: train with shrinking off"

    def _number(self, name, index):
        return array("d", self.lists[name])[index]


_SETTINGS = {
    8: ("eps (tol)", "give 0 or a finite number above it"),
    9: ("nu", "give a number above 0 and not above 1"),
    10: ("budget (max_iter)", "give 1 to 10000000 passes"),
    14: ("floor", "give a number above 0 and not above 1; the usual one is 1e-10"),
}
