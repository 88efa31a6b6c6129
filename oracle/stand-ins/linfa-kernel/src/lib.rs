//! Stand-in for `linfa_kernel` at the least cost: a kernel is a given square matrix, which is shared, and a column is lent out of
//! it, never copied. (The published crate copies a column each time it is asked for one.) No kernel function is known.

use linfa::Float;
use ndarray::Array1;
use std::marker::PhantomData;
use std::rc::Rc;

/// Which function made the matrix. Nobody knows here: it was given.
#[derive(Clone, Debug, PartialEq)]
pub enum KernelMethod<F> {
    Given(PhantomData<F>),
}

#[derive(Clone, Debug, PartialEq)]
pub struct Kernel<F: Float> {
    size: usize,
    /// Column after column.
    entries: Rc<[F]>,
    pub method: KernelMethod<F>,
}

impl<F: Float> Kernel<F> {
    /// The entry of column c, row r stands at c·size + r of `entries`.
    pub fn given(size: usize, entries: impl Into<Rc<[F]>>) -> Kernel<F> {
        let entries = entries.into();
        assert_eq!(entries.len(), size * size, "the matrix isn't square");
        Kernel {
            size,
            entries,
            method: KernelMethod::Given(PhantomData),
        }
    }

    pub fn size(&self) -> usize {
        self.size
    }

    pub fn column(&self, c: usize) -> &[F] {
        &self.entries[c * self.size..(c + 1) * self.size]
    }

    pub fn diagonal(&self) -> Array1<F> {
        let diagonal: Vec<F> = (0..self.size).map(|k| self.column(k)[k]).collect();
        Array1::from(diagonal)
    }

    pub fn is_linear(&self) -> bool {
        false
    }
}
