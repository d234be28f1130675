//! What a run is lent besides its room.

#[derive(Clone, Copy)]
pub struct Lent<'a> {
    /// What the run is called where it fails.
    pub name: &'a str,
    pub calls: &'a [u8],
    pub allowance: usize,
    /// How many bytes the output has.
    pub output: usize,
}
