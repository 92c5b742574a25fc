//! Where a gate stands, under the source's names. The save format that says so
//! lies outside the source; here a grid is a body of document 02.

/// A grid, and the gate's own number in place of its brick's.
#[derive(Clone, Copy, Debug, PartialEq, Eq, Hash)]
pub struct BrickAddr {
    pub grid: u32,
    pub brick: u32,
}
