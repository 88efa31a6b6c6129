//! The texts of --help.

pub const VERSION: &str = concat!("altuliscia ", env!("CARGO_PKG_VERSION"), "\n");

/// The exit statuses.
macro_rules! statuses {
    () => {
        "Exit status: 0 done, 2 the words make no sense, 3 a file can't be read, or holds no problem, model,
list of serial numbers or captions, 4 something can't be written, 5 a trail or a decision isn't what
the library answers, which is a fault of this program, 6 it was done, but what was trained isn't to
be released (`train`, `weights`, `trail` and `show`; `sort` and `decide` only note it), 7 a model
doesn't say that it was trained on FILE, 10 + N the library's refusal N (11 to 24). What was wrong
is told on standard error.

Not to be released is what ended since its budget ran out, what has a rho that isn't finite or with
-s 1 an r that isn't above 0, isn't finite or has an inverse that isn't, and what has no weight
above 100*2^-52 in magnitude (docs/PROMISES.md); and a model with a weight that isn't finite.
"
    };
}

/// The part on files and options that every command has.
macro_rules! options {
    () => {
        "FILE is a text in LIBSVM's format for a precomputed kernel, a line for each sample:

  label 0:serial 1:K(1) 2:K(2) ..

The label is a whole number, serial is the sample's own number from 1 on, and K(j) is its kernel
value with the sample of number j; every value is written out, zeros too. Every j has one line, in
any order. Or FILE has the library's own bytes (docs/BYTES.md). FILE may be -, standard input. At
most 512 samples are trained. The label that is seen first is the first class; of -1 and +1, where
there are no others, it is always +1, as in LIBSVM. No file is read that has more than 2^30 bytes.

Options, named as svm-train's where they mean the same. -c10 is -c 10, --floor=1e-12 is
--floor 1e-12, and -- ends the options:

  -s 0|1|2    two classes with a cost (0), two classes with nu (1), one class with nu (2)
              (usually 0)
  -c COST     the most that a weight may be, for -s 0 (usually 1); it is kept only where both
              classes have the same cost
  -wL FACTOR  multiplies the cost of label L, for -s 0: -w1 2, -w-1 0.5
  -n NU       above 0 and not above 1, for -s 1 and -s 2 (usually 0.5). With -s 1 half of it times
              the number of samples must not be above that of either label's, as in LIBSVM
  -e EPS      the run ends where no pair breaks the conditions by this much (usually 0.001)
  -h 0|1      shrinking (usually 0: off). svm-train has it on unless it is told otherwise; here
              it is off, since with -h 1 a run may end in refusal 11, and a model may sort worse
              (docs/CAPTIONS.md)
  --budget N  the most passes, 1 to 10000000 (usually 10000000)
  --floor X   stands for the curvature of a pair where that isn't above 0: above 0 and not above 1,
              else it is refusal 14 (usually 1e-10, as in linfa-svm; svm-train has 1e-12). A smaller
              one takes longer steps along flat directions; where every curvature is above 0 it has
              no say. With another one than the usual there is no trail
  --travelling
              a sample keeps its own ceiling when shrinking moves it, for -s 0 without --retired,
              not for `trail`. Without it a step clips its weight by the ceiling of the place where
              it then stands, as in linfa-svm. It has a say only with -h 1 and costs that differ
  --retired LIST
              trains without the samples that were withdrawn, for -s 0 with -h 0. They stay in FILE,
              so every sample keeps its number. LIST has their serial numbers, as 20,31; or it is
              the name of a file that has them, parted by spaces, commas or line ends, where #
              begins a comment (20 is a number, ./20 a file); a file may name nobody. Their lines
              must be good ones, and count for which label is seen first. Of each class somebody
              must be left
  --pair A,B  of a FILE with more than two labels: trains the samples of labels A and B alone, as
              those of a file with no other lines. The first class is the one that FILE has first.
              Needed by `weights` and `trail`, which tell of one training
  --part      FILE has lines for some of the serial numbers only; without it that is a fault
  -t 4        a precomputed kernel; it is the only one there is and need not be said
  -q          says nothing where all is well; what isn't is told on standard error

"
    };
}

pub const ALL: &str = concat!(
    "altuliscia COMMAND ..

Trains a sorter of two to twelve classes, or of one, from a kernel matrix, and sorts by it; both by
the proved library libaltuliscia.a.

  altuliscia train FILE [MODEL]   trains, and writes a model file that LIBSVM's svm-predict reads
  altuliscia sort MODEL FILE      says which language each caption of FILE is in, by a model
  altuliscia decide MODEL FILE    says what each training of a model decides on each caption
  altuliscia weights FILE         trains, and lists every sample with its weight; or lists a model's
  altuliscia show MODEL [FILE]    says what a model records, and whether it was trained on FILE
  altuliscia check FILE           names all that the library would refuse, without training
  altuliscia trail --sample S FILE
                                  trains, and tells where the weight of serial number S came from

`altuliscia help COMMAND` tells of each, with its options. An example: the file small.txt has

  1 0:1 1:1 2:0
  2 0:2 1:0 2:1

and `altuliscia train small.txt` writes small.txt.model. Where captions 20 and 31 of packs.txt were
withdrawn, `altuliscia train --retired 20,31 packs.txt` trains without them, and no other caption
gets another number.

",
    statuses!()
);

pub const TRAIN: &str = concat!(
    "altuliscia train [OPTIONS] FILE [MODEL]

Trains the problem of FILE, writes a model file and says how the run ended: the lines that
svm-train ends with, the options, and the exit reason. (threshold: no pair is left to mend, with
-h 1: among the samples still active; iterations: the budget ran out.) With --retired it also says
who is retired, with --floor a floor that isn't the usual one, and --travelling where it is on. nSV
counts the weights above 100*2^-52 in magnitude, and nBSV those of them that are at their ceiling or
above it. Notes are told on standard error. Cautions, which the model keeps: a kernel that isn't
symmetric, costs that differ, that shrinking is on, weights above their ceilings or below 0 (before
they are signed by their class). Others: an option that has no say, weights that the Rust crate
linfa-svm gives to others. With -q nothing else is told.

MODEL is what LIBSVM's svm-predict reads for a precomputed kernel. Where it isn't named it is
FILE's name with .model, in this folder. Its weights are each sample's own (the home reading), all
that aren't 0; where these are more than nSV, a line says how many and why. Behind them stand the
options, who is retired, the exit reason, a hash of the samples and the cautions, which `show`
reads. It is
written whole or not at all, and replaces neither FILE nor the file of --retired nor one that is
read-only. A retired sample isn't in it, and every other is called by its own serial number. Where
what was trained isn't to be released, no model is written, an older one stays as it is, and the
exit status is 6.

  --write-anyway
              writes the model all the same, which records why it isn't to be released. The exit
              status is still 6

FILE may have 2 to 12 labels, for as many languages. With more than two, every two languages are a
pair that is trained by itself, on their own samples alone: the first with each other, then the
second with each behind it, and so on. The first is the one whose label FILE has first, and so on;
that is the order of `label` in the model, in which the first is language 1, and in a pair it is the
earlier one whose weights are positive. A pair has at most 512 samples, retired ones too; FILE may
have more. What is told of a training is told of each pair, and at the end of which the budget ran
out; a note has its pair. A sample stands in the model with a weight for each other language, where
one of them isn't 0. Where one pair isn't to be released, the model isn't.

",
    options!(),
    statuses!()
);

pub const SORT: &str = concat!(
    "altuliscia sort [OPTIONS] MODEL FILE

Says which language each caption of FILE is in. MODEL is what `altuliscia train` writes, or LIBSVM's
svm-train for a precomputed kernel, of 2 to 12 labels. Each two languages are a pair, which votes
for one of them: the sum over the pair's lines in MODEL, those of its first language first, of
weight times kernel value, less the pair's rho, is from 0 on a vote for the first, else, and where
it is NaN, for the second. The most votes win; of equals the language that MODEL names first. Sums
and votes are the proved library's (docs/RULE.md, 'Several languages').

FILE has a line for each caption, as svm-predict takes them:

  label 0:serial 1:K(1) 2:K(2) ..

The label may be left out; serial is any number, and K(j) is the caption's kernel value with the
training sample of serial number j, written out up to the largest number in MODEL.

Told are, a line for each caption: its line and its serial in FILE, its label there, the label that
it is sorted to with its votes, the runner-up with its own, and `tie of ..` with the labels that
share the most votes, where several do, and `K(j) is nan` (or inf) where a value that has a say
isn't finite, or `the decision of A,B is nan` where only the sum isn't: such a one says nothing. Of
those that FILE has a label for, the part that is sorted so is told on standard error, and how many
ties there are; and a note where MODEL isn't to be released, where it has no record, which
svm-train's never has, where a value or a decision isn't finite, and where FILE has a label that
MODEL hasn't. Where something in FILE is wrong, nothing but that is told. MODEL or FILE may be -,
standard input.

  --votes     tells the votes of every language, too, as LABEL:VOTES
  --labels    tells nothing but the label of each, a line each, which is what svm-predict writes
  -q          tells nothing on standard error where all is well

svm-predict sorts alike but where a sum less rho is exactly 0: there it votes for the second
(docs/SORTING.md).

",
    statuses!()
);

pub const DECIDE: &str = concat!(
    "altuliscia decide [OPTIONS] MODEL FILE

Says what each training of MODEL decides on each caption of FILE: the sum over its lines in MODEL,
those of its first language first, of weight times kernel value, less rho. MODEL and FILE are those
of `sort`; MODEL may be of one class, too. From 0 on a decision speaks for the first label of its
pair, else, and where it is NaN, for the second; of one class, from 0 on the caption is of the
class. Each sign is compared with the library's own vote, and nothing is told where one differs
(status 5).

Told are, a line for each caption: its line and its serial in FILE, its label there, the label that
it is sorted to (of one class 1 or -1), and each decision, with every digit, under the two labels of
its pair, as --pair takes them, or `class`; and `K(j) is nan` (or inf) where a value that has a say
isn't finite, or `the decision of A,B is nan` where only the sum isn't: such a one says nothing.
What is told on standard error is that of `sort`, but for the ties.

  --csv       lines of line,serial,label,sorted,finite and the decisions, under these names: finite
              is false where a value that has a say isn't, or a decision
  --json      the same, a list of objects; `decisions` has each by its name. What isn't finite is a
              string there
  -q          tells nothing on standard error where all is well

",
    statuses!()
);

pub const SHOW: &str = concat!(
    "altuliscia show MODEL [FILE]

Says what MODEL has and what it records of its training: the version that wrote it, the options,
who is retired, the exit reason, whether it is to be released, how many samples it was trained on,
their hash, and the cautions of `train`. A model that svm-train wrote, or altuliscia up to 1.5.0,
has no record, which is said. A record that was changed or cut, or that contradicts itself, is
refused, as by every command that reads a model. Where the model isn't to be released, the exit
status is 6.

With FILE beside it, says whether these are the samples that it was trained on, or, where FILE has
more labels, those of its pair; else the exit status is 7. The hash is SHA-256 over n in eight
bytes, the kernel matrix column by column in eight each, as the library got it, a byte for each
label (two classes: 1 for the first, 0 for the second; more: the place of each, from 0 on; one
class: none), and the serial numbers in eight each, the lowest byte first. It doesn't hang on who is
retired.

",
    statuses!()
);

pub const WEIGHTS: &str = concat!(
    "altuliscia weights [OPTIONS] FILE
altuliscia weights [OPTIONS] MODEL

Trains the problem of FILE and lists every sample: its number from 0 on, its serial number in
FILE, its label, its own weight (signed by its class), `at` where the weight is at its ceiling,
`above` where it is above it, `below 0` where it has the sign of the other class,
`retired` where the sample is retired (then its weight is 0), and what the Rust crate linfa-svm
says, or would say with another floor or with --travelling, where that is another weight.
The exit reason, rho and the options are told on standard error, who is retired, a floor that isn't
the usual one, --travelling where it is on, and the notes of `train`; with -q only the notes. Where
what was trained isn't to be released, it is listed all the same, and the exit status is 6. Where
FILE has more than two labels, --pair says which two are trained. No file is written.

Where the file's first word is svm_type it is a MODEL: then nothing is trained, and what it has is
listed, every weight that isn't 0 with its serial number, its label and the other label of its pair.
What `show` tells of it is told on standard error. It takes only --pair, --sample, --csv, --json and
-q.

  --sample S  lists the sample of serial number S alone
  --captions TEXTS
              a text file with a caption for each sample of FILE, a line each in their order, which
              must be that of their serial numbers: then the caption stands beside each
  --csv       lines of sample,serial,label,against,weight,ceiling,mark,linfa_svm,caption,eps:
              against is the other label, ceiling a number, mark at, above, below 0 or retired. What
              isn't known is empty
  --json      an object with file, model (true or false), version, options, eps, retired, release
              (true or false), unfit (why not), cautions (a list), trainings (pair, rho and exit of
              each) and weights, a list with the fields of --csv but eps. What isn't known is null,
              and what isn't finite is a string

",
    options!(),
    statuses!()
);

pub const TRAIL: &str = concat!(
    "altuliscia trail [OPTIONS] --sample S FILE

Trains the problem of FILE and tells where the weight of one sample came from: where it started,
each step that chose it, and what is answered. docs/TRAIL.md reads such a list.

  --sample S  the serial number, in FILE, of the sample to follow
  --captions TEXTS
              a text file with a caption for each sample of FILE, a line each in their order, which
              must be that of their serial numbers: then the caption stands beside each serial
              number

A step has two samples. The first table has its pass, the other sample (its partner) with its label,
whether the followed one was the first of the pair (i) or the second (j), the step, which is what it
would add to the weight, what clipping left of that where it clipped, and the weight that was left.
The second has what each step was computed from: the gradients of both, the diagonals of both, the
entry of row i at j (the kernel value, negated where the labels differ), the partner's weight and
its ceiling. Weights stand in the tables without sign and, with -s 1, not divided by r.

The list is made by a replay of the run and compared with the library's own calls: for each of these
steps one whose budget ends before it and one whose budget ends with it, and the whole run. All
weights must be the same, bit for bit; else nothing but that is told (status 5). Gradients, steps
and who is first are the replay's: no call tells them. Each time that the sample was chosen takes
two trainings. There is no trail with -h 1, nor with another floor than 1e-10. The exit reason, rho,
the options and the notes of `train` are told on standard error, and who is retired; with -q only
the notes. Where what was trained isn't to be released, the trail is told all the same, and the exit
status is 6. Where FILE has more than two labels, --pair says which two are trained: a sample has a
weight in each pair that it is in. (TEXTS has a line for each sample of FILE all the same.) No file
is written.

",
    options!(),
    statuses!()
);

pub const CHECK: &str = concat!(
    "altuliscia check [OPTIONS] FILE

Reads FILE and names all that the library would refuse, in FILE and in the options, a line each on
standard output: where it stands, what must be, and the refusal's number. What is wrong with the
list of --retired is named, too, a serial number of two lines or of none, and a nu that can't be
met. Notes are told on standard error: a kernel that isn't symmetric, costs that differ, that
shrinking is on, an option that has no say. Refusal 11 can't be known without training. Where FILE
has more than two labels, every pair is looked at, and what several would meet is named once, with
the first.
Nothing is trained and no file is written. The exit status is that of the first line.

",
    options!(),
    statuses!()
);
