//! The sorter beside trainings and votes by hand; retired captions; every error, and that nothing panics.
use altuliscia::*;

fn tuned() -> Tuned {
    Tuned::from(Options {
        eps: 0.001,
        budget: 3000,
        ..Options::default()
    })
}

/// The kernel of n points out of whole numbers, another for each seed; a caption is like itself even where its point is another's.
fn kernel(seed: usize, n: usize) -> Vec<f64> {
    let word = |k: usize| ((seed + 1) * (k + 7) * 2_654_435_761) >> 7;
    let point = |k: usize| [0, 1, 2].map(|d| (word(3 * k + d) % 7) as f64);
    let dot = |a: [f64; 3], b: [f64; 3]| 1.0 + a[0] * b[0] + a[1] * b[1] + a[2] * b[2];
    let own = |c, r| if c == r { 4.0 } else { 0.0 };
    let all = (0..n).flat_map(|c| (0..n).map(move |r| (c, r)));
    all.map(|(c, r)| dot(point(c), point(r)) + own(c, r))
        .collect()
}

/// A matrix of n captions, and their languages in turn, but for a few.
fn drawn(seed: usize, n: usize, languages: usize) -> (Vec<f64>, Vec<usize>) {
    let labels = (0..n).map(|k| 1 + (k + k / 7 * seed) % languages).collect();
    (kernel(seed, n), labels)
}

/// A pair's captions, and their part of the matrix.
fn part(matrix: &[f64], labels: &[usize], both: (usize, usize)) -> (Vec<usize>, Vec<f64>) {
    let n = labels.len();
    let own: Vec<usize> = (0..n)
        .filter(|k| labels[*k] == both.0 || labels[*k] == both.1)
        .collect();
    let entries = own.iter().flat_map(|c| own.iter().map(move |r| (c, r)));
    let part = entries.map(|(c, r)| matrix[c * n + r]).collect();
    (own, part)
}

/// The trainings of all pairs by hand, as a panel has them, with the captions of each.
fn by_hand(
    matrix: &[f64],
    labels: &[usize],
    languages: usize,
    way: Way,
) -> Vec<(Vec<usize>, Answer)> {
    let one = |both: (usize, usize)| {
        let (own, matrix) = part(matrix, labels, both);
        let signs: Vec<bool> = own.iter().map(|k| labels[*k] == both.0).collect();
        let problem = Problem {
            matrix: &matrix,
            labels: &signs,
        };
        let answer = match way {
            Way::C(cost) => fit_c(&problem, cost, cost, &tuned().options),
            Way::Nu(nu) => fit_nu(&problem, nu, &tuned().options),
            _ => unreachable!(),
        };
        (own, answer.unwrap())
    };
    pairs(languages).map(one).collect()
}

/// The votes on a row over all coefficients, also those that are 0.
fn voted(trained: &[(Vec<usize>, Answer)], languages: usize, row: &[f64]) -> Votes {
    let all = |f: fn(&Answer) -> &Vec<f64>| trained.iter().flat_map(move |(_, a)| f(a).clone());
    let coefficients: Vec<f64> = all(|a| &a.home).collect();
    let places = trained.iter().flat_map(|(own, _)| own);
    let values: Vec<f64> = places.map(|k| row[*k]).collect();
    let counts: Vec<u64> = trained.iter().map(|(own, _)| own.len() as u64).collect();
    let rhos: Vec<f64> = trained.iter().map(|(_, a)| a.rho).collect();
    let panel = Panel {
        languages,
        coefficients: &coefficients,
        values: &values,
        coefficient_counts: &counts,
        value_counts: &counts,
        rhos: &rhos,
    };
    votes(&panel).unwrap()
}

#[test]
fn trainings_and_votes_are_those_by_hand() {
    let (mut ties, mut zeros) = (0, 0);
    for languages in FEWEST_LANGUAGES..=MOST_LANGUAGES {
        let n = 6 * languages + 3;
        let (matrix, labels) = drawn(languages, n, languages);
        for way in [Way::C(0.5), Way::Nu(0.2)] {
            let sorter = Sorter::train(&Corpus::new(&matrix, &labels), way, &tuned()).unwrap();
            let hand = by_hand(&matrix, &labels, languages, way);
            assert_eq!(
                (sorter.languages(), sorter.pairs().len()),
                (languages, hand.len())
            );
            for (pair, (both, (own, answer))) in
                sorter.pairs().iter().zip(pairs(languages).zip(&hand))
            {
                assert_eq!(((pair.first, pair.second), &pair.samples), (both, own));
                assert_eq!(&pair.trained.answer, answer);
            }
            let rows: Vec<Vec<f64>> = (0..20).map(|k| kernel(k + 50, n)[..n].to_vec()).collect();
            for (row, found) in rows.iter().zip(sorter.sort_all(&rows).unwrap()) {
                assert_eq!(found.votes, voted(&hand, languages, row));
                assert_eq!(found.winner(), found.votes.winner());
                assert_eq!(found.tied(), found.votes.ties().count() > 1);
                assert_eq!(Ok(&found), sorter.sort(row).as_ref());
                // Each decision is its pair's, and its sign the vote.
                let mut counted = vec![0; languages];
                for (pair, told) in sorter.pairs().iter().zip(&found.decisions) {
                    let values: Vec<f64> = pair.samples.iter().map(|k| row[*k]).collect();
                    assert_eq!(pair.trained.decision(&values), Ok(*told));
                    counted[if *told >= 0.0 {
                        pair.first
                    } else {
                        pair.second
                    } - 1] += 1;
                }
                assert_eq!(found.votes.counts(), counted);
                ties += usize::from(found.tied());
            }
            zeros += hand
                .iter()
                .flat_map(|(_, a)| &a.home)
                .filter(|w| **w == 0.0)
                .count();
        }
    }
    assert!(ties > 20 && zeros > 100, "{} {}", ties, zeros);
}

/// As if they weren't there, but for their places, whose values have no say.
#[test]
fn retired_captions_keep_their_numbers_and_have_no_say() {
    let (n, languages) = (40, 4);
    let (mut matrix, labels) = drawn(3, n, languages);
    let retired: Vec<bool> = (0..n).map(|k| k % 6 == 2).collect();
    let standing: Vec<usize> = (0..n).filter(|k| !retired[*k]).collect();
    let entries = standing
        .iter()
        .flat_map(|c| standing.iter().map(move |r| (c, r)));
    let fewer: Vec<f64> = entries.map(|(c, r)| matrix[c * n + r]).collect();
    let left: Vec<usize> = standing.iter().map(|k| labels[*k]).collect();
    for k in (0..n).filter(|k| retired[*k]) {
        matrix[k * n..][..n].fill(1e9);
    }
    let mut corpus = Corpus::new(&matrix, &labels);
    corpus.retired = &retired;
    let all = Sorter::train(&corpus, Way::C(0.5), &tuned()).unwrap();
    let without = Sorter::train(&Corpus::new(&fewer, &left), Way::C(0.5), &tuned()).unwrap();
    for (pair, small) in all.pairs().iter().zip(without.pairs()) {
        let places = pair.samples.iter().zip(pair.trained.coefficients());
        for (k, coefficient) in places.clone().filter(|(k, _)| retired[**k]) {
            assert_eq!(coefficient.to_bits(), 0, "{}", k);
        }
        let kept: Vec<f64> = places
            .filter(|(k, _)| !retired[**k])
            .map(|(_, c)| *c)
            .collect();
        assert_eq!(kept, small.trained.coefficients());
        assert_eq!(pair.trained.rho().to_bits(), small.trained.rho().to_bits());
        assert_eq!(pair.cautions, []);
    }
    for seed in 0..20 {
        let mut row = kernel(seed, n)[..n].to_vec();
        for value in [1.0, f64::NAN, f64::INFINITY] {
            for k in (0..n).filter(|k| retired[*k]) {
                row[k] = value;
            }
            let short: Vec<f64> = standing.iter().map(|k| row[*k]).collect();
            assert_eq!(all.sort(&row), without.sort(&short));
        }
    }
}

#[test]
fn what_is_not_to_be_released_is_told_by_its_pair() {
    let (matrix, labels) = drawn(2, 30, 3);
    let corpus = Corpus::new(&matrix, &labels);
    let sorter = Sorter::train(&corpus, Way::C(0.5), &tuned()).unwrap();
    assert!(sorter.releasable() && sorter.unfit().count() == 0);
    // Everybody of language 2 is withdrawn: its two pairs have but one label.
    let retired: Vec<bool> = labels.iter().map(|label| *label == 2).collect();
    let gone = corpus_with(&corpus, &retired);
    let sorter = Sorter::train(&gone, Way::C(0.5), &tuned()).unwrap();
    let told = |sorter: &Sorter| -> Vec<(usize, usize, Unfit)> {
        let all = sorter.unfit();
        all.map(|(pair, why)| (pair.first, pair.second, why))
            .collect()
    };
    assert_eq!(told(&sorter), [(1, 2, Unfit::Rho), (2, 3, Unfit::Rho)]);
    assert!(!sorter.releasable());
    let mut short = tuned();
    short.options.budget = 1;
    let sorter = Sorter::train(&corpus, Way::C(0.5), &short).unwrap();
    assert_eq!(told(&sorter).len(), 3);
    assert!(told(&sorter)
        .iter()
        .all(|(_, _, why)| *why == Unfit::Budget));
}

fn corpus_with<'a>(corpus: &Corpus<'a>, retired: &'a [bool]) -> Corpus<'a> {
    let mut corpus = *corpus;
    corpus.retired = retired;
    corpus
}

#[test]
fn cautions_have_the_numbers_among_all() {
    let (mut matrix, labels) = drawn(0, 9, 3);
    matrix[4 * 9 + 8] += 2.0; // column 4, of language 2, row 8, of language 3
    let sorter = Sorter::train(&Corpus::new(&matrix, &labels), Way::C(0.5), &tuned()).unwrap();
    let told: Vec<usize> = sorter
        .pairs()
        .iter()
        .map(|pair| pair.cautions.len())
        .collect();
    assert_eq!(told, [0, 0, 1]);
    let caution = sorter.pairs()[2].cautions[0];
    assert!(
        matches!(caution, Caution::Asymmetric { column: 4, row: 8, entry, count: 1, .. } if entry == matrix[4 * 9 + 8]),
        "{:?}",
        caution
    );
    let few = [1, 1, 1, 1, 2, 2, 2, 2, 3];
    let sorter = Sorter::train(&Corpus::new(&kernel(0, 9), &few), Way::Nu(0.5), &tuned()).unwrap();
    let told: Vec<usize> = sorter
        .pairs()
        .iter()
        .map(|pair| pair.cautions.len())
        .collect();
    assert_eq!(told, [0, 1, 1]);
}

#[test]
fn wrong_labels_are_told() {
    let matrix = kernel(1, 9);
    let labelled = |labels: &[usize]| {
        let corpus = Corpus::new(&matrix, labels);
        Sorter::train(&corpus, Way::C(1.0), &tuned()).unwrap_err()
    };
    let label = |sample| NoSorter::Label { sample };
    let missing = |language| NoSorter::Missing { language };
    for (labels, why, words) in [
        ([1, 2, 3, 1, 2, 0, 1, 2, 13], label(5), "the label of cap"),
        ([1, 2, 3, 1, 2, 3, 1, 2, 13], label(8), "the label of cap"),
        ([1, usize::MAX, 3, 1, 2, 3, 1, 2, 3], label(1), "the label"),
        ([1; 9], NoSorter::Languages, "there are fewer"),
        ([3, 3, 3, 1, 1, 1, 3, 3, 3], missing(2), "language 2 has no"),
        ([2; 9], missing(1), "language 1 has no"),
    ] {
        let told = labelled(&labels);
        assert_eq!(told, why);
        assert!(told.to_string().starts_with(words), "{}", told);
    }
    assert_eq!(labelled(&[]), NoSorter::Languages);
    assert_eq!(labelled(&[1, 2]), NoSorter::Matrix { captions: 2 });
}

#[test]
fn lists_of_another_length_are_told() {
    let (matrix, labels) = drawn(1, 9, 3);
    let corpus = Corpus::new(&matrix, &labels);
    let (c, nu) = (Way::C(1.0), Way::Nu(0.1));
    let train = |corpus: &Corpus, way| Sorter::train(corpus, way, &tuned());
    let told = train(&Corpus::new(&matrix[1..], &labels), c).unwrap_err();
    let words = "the matrix hasn't 9 times 9 entries, as 9 labels say";
    assert_eq!(told.to_string(), words);
    for length in [1, 8, 10] {
        let told = train(&corpus_with(&corpus, &vec![true; length]), c);
        assert_eq!(told, Err(NoSorter::Retired { captions: 9 }));
    }
    let mut retired = [false; 9];
    assert!(train(&corpus_with(&corpus, &retired), nu).is_ok());
    retired[3] = true;
    let told = train(&corpus_with(&corpus, &retired), nu);
    assert_eq!(told, Err(NoSorter::RetiredNu));
}

/// The pair and the refusal of captions with a kernel of nine.
fn refused(matrix: &[f64], way: Way, tuned: &Tuned) -> (usize, usize, Refusal) {
    let labels = drawn(0, 9, 3).1;
    match Sorter::train(&Corpus::new(matrix, &labels), way, tuned) {
        Err(NoSorter::Refused {
            first,
            second,
            refusal,
        }) => (first, second, refusal),
        other => panic!("{:?}", other),
    }
}

#[test]
fn a_refusal_names_the_pair_and_the_entry_among_all() {
    let (mut matrix, c) = (kernel(0, 9), Way::C(1.0));
    let mut late = tuned();
    late.options.budget = 0;
    assert_eq!(refused(&matrix, c, &late), (1, 2, Refusal::Budget));
    let (cost, nu) = (Refusal::Ceiling { index: 0 }, Refusal::Nu);
    assert_eq!(refused(&matrix, Way::C(-1.0), &tuned()), (1, 2, cost));
    assert_eq!(refused(&matrix, Way::Nu(2.0), &tuned()), (1, 2, nu));
    for (column, row, first, second) in [(1, 2, 2, 3), (8, 3, 1, 3), (7, 7, 1, 2), (2, 8, 1, 3)] {
        let place = column * 9 + row;
        let index = place as u64;
        let kept = std::mem::replace(&mut matrix[place], f64::NAN);
        let expected = (first, second, Refusal::Kernel { index });
        assert_eq!(refused(&matrix, c, &tuned()), expected);
        matrix[place] = kept;
    }
}

#[test]
fn too_many_captions_for_a_pair_are_told() {
    let labels: Vec<usize> = (0..600).map(|k| 1 + k % 2).collect();
    let matrix = vec![0.0; 360_000];
    let many = Sorter::train(&Corpus::new(&matrix, &labels), Way::C(1.0), &tuned());
    let told = many.unwrap_err().to_string();
    let words = "languages 1 and 2: refusal 1: The number of samples";
    assert!(told.starts_with(words), "{}", told);
}

#[test]
fn a_caption_with_other_values_is_not_sorted() {
    let (matrix, labels) = drawn(1, 9, 3);
    let sorter = Sorter::train(&Corpus::new(&matrix, &labels), Way::C(1.0), &tuned()).unwrap();
    assert_eq!(sorter.captions(), 9);
    for length in [0, 8, 10] {
        let told = sorter.sort(&vec![1.0; length]).unwrap_err().to_string();
        let words = format!(
            "caption 0, counted from 0, has {} kernel values: give 9",
            length
        );
        assert!(told.starts_with(&words), "{}", told);
    }
    let rows = [vec![1.0; 9], vec![f64::NAN; 9], vec![1.0; 3]];
    let told = sorter.sort_all(&rows).unwrap_err();
    assert!(matches!(told, Unsorted::Values(wrong) if (wrong.caption, wrong.values) == (2, 3)));
    let found = sorter.sort_all(&rows[..2]).unwrap();
    // NaN is the second's, in every pair: the last language has both its votes.
    assert_eq!((found.len(), found[1].winner()), (2, 3));
}
