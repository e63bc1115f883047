//! Stand-in for `ndarray`: a table of rows, owned, shared or viewed.
//!
//! Rows are always contiguous here, so `to_slice` never gives `None`. A row that does not
//! exist panics, as in ndarray.

use std::sync::Arc;

/// The number of items is not rows times columns.
#[derive(Debug)]
pub struct ShapeError;

/// A table that owns its items.
#[derive(Clone, Debug)]
pub struct Array2<A> {
    items: Vec<A>,
    shape: (usize, usize),
}

impl<A> Array2<A> {
    pub fn from_shape_vec(shape: (usize, usize), items: Vec<A>) -> Result<Self, ShapeError> {
        if shape.0.checked_mul(shape.1) == Some(items.len()) {
            Ok(Array2 { items, shape })
        } else {
            Err(ShapeError)
        }
    }

    pub fn zeros(shape: (usize, usize)) -> Self
    where
        A: Clone + Default,
    {
        let items = vec![A::default(); shape.0 * shape.1];
        Array2 { items, shape }
    }

    pub fn into_shared(self) -> ArcArray2<A> {
        ArcArray2(Arc::new(self))
    }
}

/// A table that is copied on the first write while it is shared.
#[derive(Clone, Debug)]
pub struct ArcArray2<A>(Arc<Array2<A>>);

impl<A> ArcArray2<A> {
    pub fn view(&self) -> ArrayView2<'_, A> {
        ArrayView2 {
            items: &self.0.items,
            shape: self.0.shape,
        }
    }

    pub fn row_mut(&mut self, index: usize) -> ArrayViewMut1<'_, A>
    where
        A: Clone,
    {
        let table = Arc::make_mut(&mut self.0);
        let place = row_place(table.shape, index);
        ArrayViewMut1(&mut table.items[place])
    }
}

/// A borrowed table.
#[derive(Debug)]
pub struct ArrayView2<'a, A> {
    items: &'a [A],
    shape: (usize, usize),
}

// Derived copies would ask the items to be `Copy` as well.
impl<A> Clone for ArrayView2<'_, A> {
    fn clone(&self) -> Self {
        *self
    }
}

impl<A> Copy for ArrayView2<'_, A> {}

impl<'a, A> ArrayView2<'a, A> {
    pub fn from_shape(shape: (usize, usize), items: &'a [A]) -> Result<Self, ShapeError> {
        if shape.0.checked_mul(shape.1) == Some(items.len()) {
            Ok(ArrayView2 { items, shape })
        } else {
            Err(ShapeError)
        }
    }

    pub fn nrows(&self) -> usize {
        self.shape.0
    }

    pub fn ncols(&self) -> usize {
        self.shape.1
    }

    pub fn row(&self, index: usize) -> ArrayView1<'a, A> {
        ArrayView1(&self.items[row_place(self.shape, index)])
    }

    pub fn rows(&self) -> impl Iterator<Item = ArrayView1<'a, A>> {
        let table = *self;
        (0..table.nrows()).map(move |index| table.row(index))
    }

    pub fn to_shared(&self) -> ArcArray2<A>
    where
        A: Clone,
    {
        ArcArray2(Arc::new(Array2 {
            items: self.items.to_vec(),
            shape: self.shape,
        }))
    }
}

/// A borrowed row.
pub struct ArrayView1<'a, A>(&'a [A]);

impl<'a, A> ArrayView1<'a, A> {
    pub fn iter(&self) -> std::slice::Iter<'a, A> {
        self.0.iter()
    }

    pub fn to_slice(&self) -> Option<&'a [A]> {
        Some(self.0)
    }
}

/// A row lent for writing.
pub struct ArrayViewMut1<'a, A>(&'a mut [A]);

impl<'a, A> ArrayViewMut1<'a, A> {
    pub fn into_slice(self) -> Option<&'a mut [A]> {
        Some(self.0)
    }
}

fn row_place(shape: (usize, usize), index: usize) -> std::ops::Range<usize> {
    assert!(index < shape.0, "row {index} of a table of {}", shape.0);
    index * shape.1..(index + 1) * shape.1
}
