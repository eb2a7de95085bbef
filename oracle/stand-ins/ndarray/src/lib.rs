//! Stands for the crate ndarray: rows of floats, their sum and a few element-wise steps, in R4.8's and R4.10's order.

use std::ops::{AddAssign, DivAssign, RangeBounds};
use std::slice::SliceIndex;

/// The place of a stretch of one row: `s![row, columns]`.
#[macro_export]
macro_rules! s {
    ($row:expr, $columns:expr) => {
        ($row, $columns)
    };
}

/// The direction of a sum; only `Axis(0)`, down the rows, is asked for.
pub struct Axis(pub usize);

/// The word that new tables are asked of.
pub struct Array;

impl Array {
    /// A table of +0.
    pub fn zeros((rows, columns): (usize, usize)) -> Array2<f32> {
        Array2 {
            columns,
            cells: vec![0.0; rows * columns],
        }
    }
}

/// A table, row after row.
#[derive(Clone)]
pub struct Array2<T> {
    columns: usize,
    cells: Vec<T>,
}

/// A row that owns its floats.
pub struct Array1(Vec<f32>);

/// A stretch of a row.
pub struct ArrayView<'a>(&'a [f32]);

/// A stretch of a row, to be changed.
pub struct ArrayViewMut<'a>(&'a mut [f32]);

impl Array2<f32> {
    #[inline]
    pub fn row(&self, row: usize) -> ArrayView<'_> {
        self.slice((row, ..))
    }

    #[inline]
    pub fn row_mut(&mut self, row: usize) -> ArrayViewMut<'_> {
        self.slice_mut((row, ..))
    }

    /// A stretch of one row. One that leaves the row panics.
    #[inline]
    pub fn slice<R>(&self, (row, columns): (usize, R)) -> ArrayView<'_>
    where
        R: RangeBounds<usize> + SliceIndex<[f32], Output = [f32]>,
    {
        let start = row * self.columns;
        ArrayView(&self.cells[start..start + self.columns][columns])
    }

    /// A stretch of one row, to be changed. One that leaves the row panics.
    #[inline]
    pub fn slice_mut<R>(&mut self, (row, columns): (usize, R)) -> ArrayViewMut<'_>
    where
        R: RangeBounds<usize> + SliceIndex<[f32], Output = [f32]>,
    {
        let start = row * self.columns;
        ArrayViewMut(&mut self.cells[start..start + self.columns][columns])
    }

    /// The sum of all rows: from +0, in order.
    pub fn sum_axis(&self, axis: Axis) -> Array1 {
        assert!(axis.0 == 0, "only the sum down the rows is stood in for");
        let mut sum = vec![0.0; self.columns];
        for row in self.cells.chunks_exact(self.columns) {
            for (total, x) in sum.iter_mut().zip(row) {
                *total += x;
            }
        }
        Array1(sum)
    }
}

impl Array1 {
    pub fn to_owned(self) -> Array1 {
        self
    }

    #[inline]
    pub fn as_slice(&self) -> Option<&[f32]> {
        Some(&self.0)
    }
}

impl DivAssign<f32> for Array1 {
    fn div_assign(&mut self, divisor: f32) {
        for x in &mut self.0 {
            *x /= divisor;
        }
    }
}

impl ArrayView<'_> {
    pub fn to_owned(&self) -> Array1 {
        Array1(self.0.to_vec())
    }

    #[inline]
    pub fn as_slice(&self) -> Option<&[f32]> {
        Some(self.0)
    }
}

impl<'a> From<&'a [f32]> for ArrayView<'a> {
    fn from(row: &'a [f32]) -> Self {
        ArrayView(row)
    }
}

impl ArrayViewMut<'_> {
    #[inline]
    pub fn as_slice_mut(&mut self) -> Option<&mut [f32]> {
        Some(self.0)
    }

    pub fn assign(&mut self, row: &Array1) {
        self.0.copy_from_slice(&row.0);
    }
}

impl AddAssign<&ArrayView<'_>> for ArrayViewMut<'_> {
    fn add_assign(&mut self, row: &ArrayView<'_>) {
        assert!(self.0.len() == row.0.len(), "rows of different lengths");
        for (x, y) in self.0.iter_mut().zip(row.0) {
            *x += y;
        }
    }
}
