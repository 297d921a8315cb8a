//! What a step is handed, drawn or in a walk.

/// More conditions than any group has.
pub const MOST_CONDITIONS: usize = 20;

/// All of it besides memory.
#[derive(Clone, Copy)]
pub struct Handed {
    pub received: [u8; 2],
    /// Of the conditions, which are the first of those that are lent.
    pub count: usize,
    pub command: u8,
    pub channel: u8,
}
