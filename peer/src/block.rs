//! A block of the tables that are printed.

use std::io;

pub type Block<W> = fn(&mut W) -> io::Result<()>;

#[cfg(test)]
pub fn printed(block: Block<Vec<u8>>) -> String {
    let mut out = Vec::new();
    block(&mut out).expect("memory takes every write");
    String::from_utf8(out).expect("the tables are text")
}
