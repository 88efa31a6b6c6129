//! The C functions, as include/altuliscia.h has them. oracle/compare, host/captions and a test take this file in, too.

// None calls all of them.
#[allow(dead_code)]
#[rustfmt::skip]
extern "C" {
    pub fn altuliscia_general(n: usize, matrix: *const u8, matrix_len: usize, labels: *const u8, labels_len: usize,
        ceilings: *const u8, ceilings_len: usize, alphas: *const u8, alphas_len: usize, linear: *const u8, linear_len: usize,
        nu_rule: u8, eps: u64, shrinking: u8, budget: u64, crate_reading: *mut u8, crate_reading_len: usize,
        home: *mut u8, home_len: usize, answer: *mut u8, answer_len: usize) -> u64;
    pub fn altuliscia_retired(n: usize, matrix: *const u8, matrix_len: usize, labels: *const u8, labels_len: usize,
        ceilings: *const u8, ceilings_len: usize, alphas: *const u8, alphas_len: usize, linear: *const u8, linear_len: usize,
        retired: *const u8, retired_len: usize, nu_rule: u8, eps: u64, shrinking: u8, budget: u64,
        tuning: *const u8, tuning_len: usize, crate_reading: *mut u8, crate_reading_len: usize,
        home: *mut u8, home_len: usize, answer: *mut u8, answer_len: usize) -> u64;
    pub fn altuliscia_c(n: usize, matrix: *const u8, matrix_len: usize, labels: *const u8, labels_len: usize,
        cpos: u64, cneg: u64, eps: u64, shrinking: u8, budget: u64, crate_reading: *mut u8, crate_reading_len: usize,
        home: *mut u8, home_len: usize, answer: *mut u8, answer_len: usize) -> u64;
    pub fn altuliscia_nu(n: usize, matrix: *const u8, matrix_len: usize, labels: *const u8, labels_len: usize,
        nu: u64, eps: u64, shrinking: u8, budget: u64, crate_reading: *mut u8, crate_reading_len: usize,
        home: *mut u8, home_len: usize, answer: *mut u8, answer_len: usize) -> u64;
    pub fn altuliscia_one_class(n: usize, matrix: *const u8, matrix_len: usize,
        nu: u64, eps: u64, shrinking: u8, budget: u64, crate_reading: *mut u8, crate_reading_len: usize,
        home: *mut u8, home_len: usize, answer: *mut u8, answer_len: usize) -> u64;
    pub fn altuliscia_general_tuned(n: usize, matrix: *const u8, matrix_len: usize, labels: *const u8, labels_len: usize,
        ceilings: *const u8, ceilings_len: usize, alphas: *const u8, alphas_len: usize, linear: *const u8, linear_len: usize,
        nu_rule: u8, eps: u64, shrinking: u8, budget: u64, tuning: *const u8, tuning_len: usize,
        crate_reading: *mut u8, crate_reading_len: usize, home: *mut u8, home_len: usize,
        answer: *mut u8, answer_len: usize) -> u64;
    pub fn altuliscia_c_tuned(n: usize, matrix: *const u8, matrix_len: usize, labels: *const u8, labels_len: usize,
        cpos: u64, cneg: u64, eps: u64, shrinking: u8, budget: u64, tuning: *const u8, tuning_len: usize,
        crate_reading: *mut u8, crate_reading_len: usize, home: *mut u8, home_len: usize,
        answer: *mut u8, answer_len: usize) -> u64;
    pub fn altuliscia_nu_tuned(n: usize, matrix: *const u8, matrix_len: usize, labels: *const u8, labels_len: usize,
        nu: u64, eps: u64, shrinking: u8, budget: u64, tuning: *const u8, tuning_len: usize,
        crate_reading: *mut u8, crate_reading_len: usize, home: *mut u8, home_len: usize,
        answer: *mut u8, answer_len: usize) -> u64;
    pub fn altuliscia_one_class_tuned(n: usize, matrix: *const u8, matrix_len: usize,
        nu: u64, eps: u64, shrinking: u8, budget: u64, tuning: *const u8, tuning_len: usize,
        crate_reading: *mut u8, crate_reading_len: usize, home: *mut u8, home_len: usize,
        answer: *mut u8, answer_len: usize) -> u64;
    pub fn altuliscia_pair(weight_i: u64, ceiling_i: u64, weight_j: u64, ceiling_j: u64, gradient_i: u64, gradient_j: u64,
        diagonal_i: u64, diagonal_j: u64, entry: u64, agree: u8, pair: *mut u8, pair_len: usize) -> u64;
    pub fn altuliscia_votes(languages: u64, coefficients: *const u8, coefficients_len: usize, values: *const u8, values_len: usize,
        coefficient_counts: *const u8, coefficient_counts_len: usize, value_counts: *const u8, value_counts_len: usize,
        rhos: *const u8, rhos_len: usize, votes: *mut u8, votes_len: usize, answer: *mut u8, answer_len: usize) -> u64;
}
