//! Stand-in for `ndarray`: one- and two-dimensional lists in row order, with
//! only what the published text asks of them.

use std::ops::{AddAssign, Index, Mul};

/// Which dimension is meant: 0 for rows, 1 for columns.
pub struct Axis(pub usize);

#[derive(Clone, Debug, PartialEq)]
pub struct Array1<A> {
    items: Vec<A>,
}

impl<A> From<Vec<A>> for Array1<A> {
    fn from(items: Vec<A>) -> Array1<A> {
        Array1 { items }
    }
}

impl<A> Index<usize> for Array1<A> {
    type Output = A;

    fn index(&self, k: usize) -> &A {
        &self.items[k]
    }
}

impl<A: Copy + Default + AddAssign + Mul<Output = A>> Array1<A> {
    pub fn zeros(len: usize) -> Array1<A> {
        Array1 {
            items: vec![A::default(); len],
        }
    }

    /// `self += scale * other`, place by place.
    pub fn scaled_add(&mut self, scale: A, other: &ArrayView1<A>) {
        for (item, o) in self.items.iter_mut().zip(other.items) {
            *item += scale * *o;
        }
    }
}

#[derive(Clone, Copy, Debug, PartialEq)]
pub struct ArrayView1<'a, A> {
    items: &'a [A],
}

#[derive(Clone, Debug, PartialEq)]
pub struct Array2<A> {
    rows: usize,
    columns: usize,
    items: Vec<A>,
}

impl<A> Array2<A> {
    pub fn len_of(&self, axis: Axis) -> usize {
        [self.rows, self.columns][axis.0]
    }

    /// The items, row after row.
    pub fn items(&self) -> &[A] {
        &self.items
    }
}

#[derive(Clone, Copy, Debug, PartialEq)]
pub struct ArrayView2<'a, A> {
    rows: usize,
    columns: usize,
    items: &'a [A],
}

impl<'a, A: Copy> ArrayView2<'a, A> {
    pub fn from_rows(rows: usize, columns: usize, items: &'a [A]) -> ArrayView2<'a, A> {
        assert_eq!(items.len(), rows * columns, "items don't fill the shape");
        ArrayView2 {
            rows,
            columns,
            items,
        }
    }

    pub fn len_of(&self, axis: Axis) -> usize {
        [self.rows, self.columns][axis.0]
    }

    fn row(&self, k: usize) -> &'a [A] {
        &self.items[k * self.columns..(k + 1) * self.columns]
    }

    pub fn outer_iter(&self) -> impl Iterator<Item = ArrayView1<'a, A>> + '_ {
        (0..self.rows).map(|k| ArrayView1 { items: self.row(k) })
    }

    /// The rows of the given numbers, in their order.
    pub fn select(&self, axis: Axis, rows: &[usize]) -> Array2<A> {
        assert_eq!(axis.0, 0, "rows alone are selected");
        Array2 {
            rows: rows.len(),
            columns: self.columns,
            items: rows.iter().flat_map(|k| self.row(*k)).copied().collect(),
        }
    }
}
