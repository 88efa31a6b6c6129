//! The votes beside a count of our own, on drawn panels; ties, edges and refusals.
use altuliscia::*;

/// A panel's lists.
#[derive(Clone, Debug)]
struct Lists {
    languages: usize,
    coefficients: Vec<f64>,
    values: Vec<f64>,
    counts: Vec<u64>,
    rhos: Vec<f64>,
}

impl Lists {
    fn panel(&self) -> Panel<'_> {
        Panel {
            languages: self.languages,
            coefficients: &self.coefficients,
            values: &self.values,
            coefficient_counts: &self.counts,
            value_counts: &self.counts,
            rhos: &self.rhos,
        }
    }
}

/// Numbers that look drawn.
struct Drawn(u64);

impl Drawn {
    fn below(&mut self, limit: u64) -> u64 {
        self.0 = self
            .0
            .wrapping_mul(6364136223846793005)
            .wrapping_add(1442695040888963407);
        (self.0 >> 33) % limit
    }

    /// Mostly a small number, often 0, at times what no training answers.
    fn number(&mut self) -> f64 {
        let strange = [
            f64::NAN,
            f64::INFINITY,
            -f64::INFINITY,
            -0.0,
            5e-324,
            1e308,
            -1e308,
        ];
        match self.below(60) {
            k if k < 7 => strange[k as usize],
            k if k < 20 => 0.0,
            _ => (self.below(2001) as f64 - 1000.0) / 64.0,
        }
    }

    fn lists(&mut self) -> Lists {
        let languages = 2 + self.below(11) as usize;
        let all = pairs(languages).count();
        let most = 1 + self.below(9);
        let counts: Vec<u64> = (0..all).map(|_| self.below(most)).collect();
        let total: u64 = counts.iter().sum();
        let coefficients = (0..total).map(|_| self.number()).collect();
        let values = (0..total).map(|_| self.number()).collect();
        Lists {
            languages,
            coefficients,
            values,
            counts,
            rhos: (0..all).map(|_| self.number()).collect(),
        }
    }
}

/// The rule once more: the votes of each language, and the winner.
fn counted(l: &Lists) -> (Vec<u64>, usize) {
    let mut votes = vec![0; l.languages];
    let mut from = 0;
    for (pair, (first, second)) in pairs(l.languages).enumerate() {
        let mut sum = 0.0;
        let to = from + l.counts[pair] as usize;
        for k in from..to {
            sum += l.coefficients[k] * l.values[k];
        }
        from = to;
        let takes = if sum - l.rhos[pair] >= 0.0 {
            first
        } else {
            second
        };
        votes[takes - 1] += 1;
    }
    let most = votes.iter().copied().max().unwrap();
    let winner = 1 + votes.iter().position(|v| *v == most).unwrap();
    (votes, winner)
}

#[test]
fn drawn_panels_are_counted_alike() {
    let mut drawn = Drawn(4);
    let (mut ties, mut zeros, mut nans) = (0, 0, 0);
    for _ in 0..4000 {
        let lists = drawn.lists();
        let found = votes(&lists.panel()).unwrap();
        let (expected, winner) = counted(&lists);
        assert_eq!((found.counts(), found.winner()), (&expected[..], winner));
        let shared: Vec<usize> = found.ties().collect();
        assert_eq!(shared[0], winner);
        ties += usize::from(shared.len() > 1);
        zeros += lists.rhos.iter().filter(|rho| **rho == 0.0).count();
        nans += lists.rhos.iter().filter(|rho| rho.is_nan()).count();
        let total: u64 = found.counts().iter().sum();
        assert_eq!(total as usize, pairs(lists.languages).count());
        assert_ne!(found.runner_up(), winner);
    }
    assert!(ties > 400 && zeros > 400 && nans > 400, "{}", ties);
}

/// One pair, of one coefficient.
fn one(coefficient: f64, value: f64, rho: f64) -> Lists {
    Lists {
        languages: 2,
        coefficients: vec![coefficient],
        values: vec![value],
        counts: vec![1],
        rhos: vec![rho],
    }
}

#[test]
fn zero_is_the_firsts_and_nan_the_seconds() {
    for (coefficient, value, rho, winner) in [
        (1.0, 0.5, 0.5, 1),
        (1.0, 0.5, 0.5000000000000001, 2),
        (0.0, 1.0, 0.0, 1),
        (-0.0, 1.0, 0.0, 1),
        (1.0, 1.0, f64::NAN, 2),
        (f64::NAN, 1.0, 0.0, 2),
        (0.0, f64::INFINITY, -1.0, 2),
        (1.0, f64::INFINITY, f64::INFINITY, 2),
        (1.0, f64::INFINITY, 0.0, 1),
        (1.0, 1.0, -f64::INFINITY, 1),
    ] {
        let found = votes(&one(coefficient, value, rho).panel()).unwrap();
        assert_eq!(found.winner(), winner, "{} {} {}", coefficient, value, rho);
    }
    // The order of a sum, and that no product is merged with it.
    let mut lists = one(1.0, 1.0, 0.0);
    lists.coefficients = vec![1e16, 1.0, -1e16];
    lists.values = vec![1.0; 3];
    lists.counts = vec![3];
    lists.rhos = vec![0.5];
    assert_eq!(votes(&lists.panel()).unwrap().winner(), 2);
    lists.coefficients = vec![1e16, -1e16, 1.0];
    assert_eq!(votes(&lists.panel()).unwrap().winner(), 1);
    let third = 1.0 / 3.0;
    lists.coefficients = vec![-1.0, 3.0, 0.0];
    lists.values = vec![1.0, third, 0.0];
    lists.rhos = vec![0.0];
    assert_eq!(votes(&lists.panel()).unwrap().winner(), 1);
    assert!(3f64.mul_add(third, -1.0) < 0.0);
}

/// No pair has a coefficient: each rho says who is voted for.
#[test]
fn of_equals_the_lowest_wins() {
    for languages in FEWEST_LANGUAGES..=MOST_LANGUAGES {
        let all = pairs(languages).count();
        let mut lists = Lists {
            languages,
            coefficients: Vec::new(),
            values: Vec::new(),
            counts: vec![0; all],
            rhos: vec![-1.0; all],
        };
        let most = languages as u64 - 1;
        let found = votes(&lists.panel()).unwrap();
        assert_eq!(
            (found.winner(), found.of(1), found.runner_up()),
            (1, most, 2)
        );
        lists.rhos = vec![1.0; all];
        let found = votes(&lists.panel()).unwrap();
        assert_eq!((found.winner(), found.of(languages)), (languages, most));
        assert_eq!(found.runner_up(), languages - 1);
        assert_eq!(found.counts().len(), languages);
    }
    // Each of three beats the next.
    let round = Lists {
        languages: 3,
        coefficients: Vec::new(),
        values: Vec::new(),
        counts: vec![0; 3],
        rhos: vec![-1.0, 1.0, -1.0],
    };
    let found = votes(&round.panel()).unwrap();
    assert_eq!((found.winner(), found.counts()), (1, &[1, 1, 1][..]));
    assert_eq!(found.ties().collect::<Vec<_>>(), [1, 2, 3]);
}

#[test]
fn what_is_wrong_is_told_in_its_order() {
    let lists = Drawn(9).lists();
    let panel = lists.panel();
    let (all, total) = (lists.counts.len(), lists.values.len());
    assert!(all > 3 && total > 3);
    for languages in [0, 1, 13, usize::MAX] {
        let many = Panel { languages, ..panel };
        assert_eq!(votes(&many), Err(NoVotes::Languages));
    }
    let mut other = lists.counts.clone();
    other[2] += 1;
    other[3] += 1;
    let differ = Panel {
        value_counts: &other,
        ..panel
    };
    assert_eq!(votes(&differ), Err(NoVotes::Counts { pair: 2 }));
    other[0] = u64::MAX;
    let differ = Panel {
        coefficient_counts: &other,
        ..panel
    };
    assert_eq!(votes(&differ), Err(NoVotes::Counts { pair: 0 }));
    // A list of counts that is too short comes first, whatever stands in it.
    let short = Panel {
        value_counts: &other[..all - 1],
        ..panel
    };
    assert_eq!(votes(&short), Err(NoVotes::Length));
    let none = Panel {
        coefficient_counts: &[],
        value_counts: &[],
        ..panel
    };
    assert_eq!(votes(&none), Err(NoVotes::Length));
    let both = Panel {
        coefficient_counts: &other,
        value_counts: &other,
        ..panel
    };
    assert_eq!(votes(&both), Err(NoVotes::Length));
    let longer = [&lists.values[..], &[0.0]].concat();
    for values in [&lists.values[1..], &longer, &[]] {
        let wrong = Panel { values, ..panel };
        assert_eq!(votes(&wrong), Err(NoVotes::Length));
        let wrong = Panel {
            coefficients: values,
            ..panel
        };
        assert_eq!(votes(&wrong), Err(NoVotes::Length));
    }
    let wrong = Panel {
        rhos: &lists.rhos[1..],
        ..panel
    };
    assert_eq!(votes(&wrong), Err(NoVotes::Length));
    assert!(votes(&panel).is_ok());
}

#[test]
fn pairs_are_in_the_order_of_the_rule() {
    assert_eq!(pairs(0).count() + pairs(1).count(), 0);
    let four: Vec<(usize, usize)> = pairs(4).collect();
    assert_eq!(four, [(1, 2), (1, 3), (1, 4), (2, 3), (2, 4), (3, 4)]);
    for k in 2..=12 {
        assert_eq!(pairs(k).count(), k * (k - 1) / 2);
    }
}
