#!/usr/bin/env python3
"""Makes kernel figures from real captions: those of Debian's package python3-django, in twelve languages.

    captions/make.py all [FOLDER]   every pair of languages, 512 training captions each, into FOLDER (target/captions)
    captions/make.py twelve N [FOLDER]
                                    all twelve languages in one file, twelve.txt, N training captions of each language (up to 256),
                                    into FOLDER (target/languages)
    captions/make.py ship [FOLDER]  what ships with the repository, into FOLDER (captions): two pairs, 64 training captions each, and
                                    twelve.txt with 32 of each language
    captions/make.py texts FIRST SECOND N
                                    prints the first N training captions of two languages themselves, a line each, in the order of
                                    the figures
    captions/make.py version        prints the package's version

captions/README.md says what a caption, a selection and a figure is. Needs Python 3 and `apt-get install python3-django`, and
nothing else; no code of that package is run.
"""
import hashlib
import itertools
import os
import struct
import subprocess
import sys
from collections import Counter

LANGUAGES = "cs da de es fi fr hu it nl pl sk sv".split()
SHIPPED = [("cs", "sk"), ("da", "sv")]
SHIPPED_OF_EACH = 32
PACKAGE = "python3-django"
ROOT = "/usr/lib/python3/dist-packages/django"
HERE = os.path.dirname(os.path.abspath(__file__))

# As many msgids as this are kept for training, whatever the number that a file asks for: the held-out ones stay the same.
TRAINING_MSGIDS = 256


def read_mo(path):
    """The entries of a compiled catalogue: msgid (with its context) and caption, the first form where there are several."""
    with open(path, "rb") as file:
        data = file.read()
    magic, _, count, msgids, captions = struct.unpack_from("<5I", data)
    if magic != 0x950412DE:
        raise SystemExit(f"{path}: not a catalogue of this byte order")
    for k in range(count):
        pair = []
        for table in (msgids, captions):
            length, start = struct.unpack_from("<2I", data, table + 8 * k)
            pair.append(data[start:start + length].decode("utf-8").split("\0")[0])
        yield pair


def catalogue(language):
    """Every caption of a language by its msgid. Where two catalogues have a msgid, the first by path has it."""
    captions = {}
    for folder, folders, files in os.walk(ROOT):
        folders.sort()
        if folder.endswith(f"/locale/{language}/LC_MESSAGES"):
            for name in sorted(files):
                if name.endswith(".mo"):
                    for msgid, caption in read_mo(os.path.join(folder, name)):
                        if msgid and caption:
                            captions.setdefault(msgid, caption)
    return captions


def plain(caption):
    """The text that is compared: lower case, a run of white space as one space, one space before and one behind."""
    return " " + " ".join(caption.lower().split()) + " "


def usable(caption):
    return any(c.isalpha() for c in caption) and not any(c in "%{<\n" for c in caption)


def chosen(*languages):
    """The msgids whose captions are taken of these languages, in the order of their SHA-256."""
    seen, msgids = set(), []
    for msgid in sorted(set.intersection(*map(set, languages)), key=lambda m: hashlib.sha256(m.encode("utf-8")).digest()):
        if not all(usable(language[msgid]) for language in languages):
            continue
        own = {plain(language[msgid]) for language in languages}
        if len(own) < len(languages) or own & seen:
            continue
        seen |= own
        msgids.append(msgid)
    return msgids


def selected(*languages):
    """The captions of these languages, one of each together, in that order."""
    return [tuple(plain(language[msgid]) for language in languages) for msgid in chosen(*languages)]


def texts(first, second, training):
    """The training captions themselves, each in one line, as the figures have them: of each msgid first that of the first language."""
    captions = [language[msgid] for msgid in chosen(first, second)[:TRAINING_MSGIDS] for language in (first, second)]
    return [" ".join(caption.split()) for caption in captions[:training]]


def grams(text):
    """How often each part of one, two or three characters stands in a text."""
    return Counter(text[k:k + size] for size in (1, 2, 3) for k in range(len(text) - size + 1))


class Products:
    """The products of a caption with each of a list: sums of count times count, all whole numbers.

    The counts that a part has in all the captions stand in one large number, LANE bits for each caption, so that a row of
    products is a few multiplications of large numbers. A product must be below 2**LANE, which `row` looks after.
    """

    LANE = 32

    def __init__(self, captions):
        self.size = len(captions)
        self.most = max(sum(counts.values()) for counts in captions)
        self.lanes = Counter()
        for k, counts in enumerate(captions):
            for gram, count in counts.items():
                self.lanes[gram] += count << (self.LANE * k)

    def row(self, counts):
        if sum(counts.values()) * self.most >= 1 << self.LANE:
            raise SystemExit("a caption is too long")
        total = sum(count * self.lanes[gram] for gram, count in counts.items() if gram in self.lanes)
        return struct.unpack(f"<{self.size}I", total.to_bytes(4 * self.size, "little"))


def figures(pairs, training, head):
    """The lines of a pair's file: one for each training caption, then one for each held-out caption."""
    captions = [(label, grams(text)) for pair in pairs for label, text in zip((1, 0), pair)]
    train, held = captions[:training], captions[2 * TRAINING_MSGIDS:]
    products = Products([counts for _, counts in train])
    lines = head + [f"train {len(train)}", f"held {len(held)}"]
    for k, (label, counts) in enumerate(train):
        lines.append(" ".join(map(str, (label, *products.row(counts)[:k + 1]))))
    for label, counts in held:
        own = sum(count * count for count in counts.values())
        lines.append(" ".join(map(str, (label, own, *products.row(counts)))))
    return "\n".join(lines) + "\n"


def parts(taken, of_each, head):
    """The lines of the file of all languages, captions in the same order: the label of each and its parts by their numbers."""
    train, held = ([(label, grams(text)) for texts in some for label, text in enumerate(texts, 1)]
                   for some in (taken[:of_each], taken[TRAINING_MSGIDS:]))
    often = Counter()
    for _, counts in train + held:
        often.update(counts)
    numbers = {gram: k for k, gram in enumerate(sorted(often, key=lambda gram: (-often[gram], gram)))}
    lines = head + [f"train {len(train)}", f"held {len(held)}"]
    for label, counts in train + held:
        own = sorted(numbers[gram] for gram in counts.elements())
        lines.append(" ".join(map(str, (label, own[0], *(b - a for a, b in zip(own, own[1:]))))))
    return "\n".join(lines) + "\n"


def installed():
    try:
        command = ["dpkg-query", "--show", "--showformat", "${Version}", PACKAGE]
        version = subprocess.run(command, check=True, capture_output=True, text=True).stdout
    except (OSError, subprocess.CalledProcessError):
        version = ""
    if not version:
        raise SystemExit(f"{PACKAGE} isn't installed: apt-get install {PACKAGE}")
    return version


def write(path, text):
    with open(path + ".part", "w", encoding="ascii") as file:
        file.write(text)
    os.replace(path + ".part", path)


def make(files, folder, command):
    """Writes a file for each (name, what is in it, languages, what makes its lines of the captions taken and a head)."""
    version = installed()
    os.makedirs(folder, exist_ok=True)
    catalogues = {language: catalogue(language) for language in LANGUAGES}
    for name, what, languages, lines in files:
        taken = selected(*(catalogues[language] for language in languages))
        if len(taken) <= TRAINING_MSGIDS:
            raise SystemExit(f"{name}: {len(taken)} captions are not enough")
        head = [
            f"# {what} of captions, from Debian's {PACKAGE} {version} (BSD-3-Clause), made by: {command}",
            "# What stands where: captions/README.md",
            f"package {PACKAGE} {version}",
            f"languages {' '.join(languages)}",
        ]
        write(os.path.join(folder, f"{name}.txt"), lines(taken, head))


def of_pairs(pairs, training):
    """The files of pairs of languages."""
    return [("-".join(pair), "Products", pair, lambda taken, head: figures(taken, training, head)) for pair in pairs]


def of_twelve(of_each):
    """The file of all languages."""
    return [("twelve", "Parts", LANGUAGES, lambda taken, head: parts(taken, of_each, head))]


def main(words):
    if words == ["version"]:
        print(installed())
    elif words[:1] == ["texts"] and len(words) == 4 and set(words[1:3]) <= set(LANGUAGES) and words[3].isdigit():
        installed()
        for caption in texts(catalogue(words[1]), catalogue(words[2]), int(words[3])):
            sys.stdout.buffer.write(caption.encode("utf-8") + b"\n")
    elif words[:1] == ["all"] and len(words) <= 2:
        folder = words[1] if len(words) == 2 else os.path.join(HERE, "..", "target", "captions")
        make(of_pairs(itertools.combinations(LANGUAGES, 2), 2 * TRAINING_MSGIDS), folder, "captions/make.py all")
    elif words[:1] == ["twelve"] and len(words) in (2, 3) and words[1].isdecimal() and 1 <= int(words[1]) <= TRAINING_MSGIDS:
        folder = words[2] if len(words) == 3 else os.path.join(HERE, "..", "target", "languages")
        make(of_twelve(int(words[1])), folder, f"captions/make.py twelve {int(words[1])}")
    elif words[:1] == ["ship"] and len(words) <= 2:
        folder = words[1] if len(words) == 2 else HERE
        make(of_pairs(SHIPPED, 64) + of_twelve(SHIPPED_OF_EACH), folder, "captions/make.py ship")
    else:
        sys.exit(__doc__.strip())


if __name__ == "__main__":
    main(sys.argv[1:])
