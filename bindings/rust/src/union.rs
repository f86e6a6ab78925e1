use crate::{accepted, sys, Refusal};
use std::fmt;

/// A union of vertices into parts.
///
/// ```
/// let mut parts = sendai::Union::new(3)?;
/// assert!(parts.unite(0, 1)?);                 // 0's root is hung under 1's
/// assert!(!parts.unite(1, 0)?);
/// assert_eq!(parts.find(0)?, 1);
/// assert_eq!(parts.parents(), [1, 1, 2]);
/// # Ok::<(), sendai::Refusal>(())
/// ```
#[derive(Clone, PartialEq, Eq)]
pub struct Union(pub(crate) sys::Union);

impl Union {
    /// Each vertex its own part. Refused: `Sizes` (at most 1,024).
    pub fn new(vertices: usize) -> Result<Union, Refusal> {
        let made = sys::sendai_union_new(vertices);
        accepted(made.code).map(|()| Union(made.parts))
    }

    /// The root of a vertex's part; the chain to it is shortened. Refused: `Missing`.
    pub fn find(&mut self, x: usize) -> Result<usize, Refusal> {
        let found = sys::sendai_union_find(self.0, x);
        self.0 = found.parts;
        accepted(found.code).map(|()| found.root)
    }

    /// Makes the parts of x and y one, x's root under y's; whether they were two. Refused: `Missing`.
    pub fn unite(&mut self, x: usize, y: usize) -> Result<bool, Refusal> {
        let united = sys::sendai_union_unite(self.0, x, y);
        self.0 = united.parts;
        accepted(united.code).map(|()| united.united)
    }

    /// Each vertex's parent.
    pub fn parents(&self) -> &[u16] {
        &self.0.parent[..self.0.n]
    }
}

impl fmt::Debug for Union {
    fn fmt(&self, f: &mut fmt::Formatter) -> fmt::Result {
        write!(f, "Union {:?}", self.parents())
    }
}
