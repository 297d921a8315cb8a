//! Which settings a group can have (paper: "Settings and what the order covers"; 02, g,
//! for hold). That is asked in two places, which refuse what does not fit under numbers
//! of their own: a controller and the judge as 1 and 2, the reader and the writer of a
//! book as 31 and 32 (paper: 02, f). Options that there are not are 25 in both.

use crate::pair;
use std::fmt::{self, Display, Formatter};

/// The options of an end that keeps its command until it is cleared (paper: 02, g).
pub const HOLD: u8 = 1;

/// Any numbers may stand here: some captures are made for the judge to refuse. A
/// book, though, can be bound only of those that fit (02, f).
#[derive(Clone, Copy, Debug, PartialEq, Eq)]
pub struct Settings {
    pub n: u8,
    /// As in the spare byte of a book's entry: hold, or 0 without it.
    pub options: u8,
    /// Bit c - 1 is set when section c is of high priority.
    pub mask: u16,
    pub w: u16,
}

impl Settings {
    /// Without hold.
    pub const fn new(n: u8, mask: u16, w: u16) -> Self {
        Self {
            n,
            options: 0,
            mask,
            w,
        }
    }

    pub const fn with_hold(self) -> Self {
        Self {
            options: HOLD,
            ..self
        }
    }

    /// The options come first, whatever the rest is.
    ///
    /// Inlined, because the reader of a book asks for it in each entry and otherwise takes
    /// twice as long.
    #[inline]
    pub fn check(self) -> Result<(), Unfit> {
        if self.options > HOLD {
            return Err(Unfit::Options);
        }
        check(self.n, self.mask)
    }
}

/// As they are told of a call, or of a capture, that differs.
impl Display for Settings {
    fn fmt(&self, f: &mut Formatter) -> fmt::Result {
        let Self {
            n,
            options,
            mask,
            w,
        } = self;
        write!(f, "n {n}, options {options}, mask {mask:04X}, W {w}")
    }
}

/// What does not fit. Where n and the mask do not, it is n: only with a good one can
/// be said which bits a mask may have.
#[derive(Clone, Copy, Debug, PartialEq, Eq)]
pub enum Unfit {
    /// There are no such options.
    Options,
    /// n is not a number of working sections.
    Sections,
    /// The mask has a bit at n or above.
    Mask,
}

pub fn check(n: u8, mask: u16) -> Result<(), Unfit> {
    pair::check_sections(n).map_err(|_| Unfit::Sections)?;
    if mask >> n == 0 {
        Ok(())
    } else {
        Err(Unfit::Mask)
    }
}

#[cfg(test)]
mod tests {
    use super::*;

    /// By hand from the bounds: n within 1 to 14, and a mask of n bits at most.
    #[test]
    fn settings_fit_within_their_bounds() {
        for n in 0..=u8::MAX {
            let sections = (1..=14).contains(&n);
            for mask in 0..=u16::MAX {
                let bits = 16 - mask.leading_zeros();
                let expected = match (sections, bits <= u32::from(n)) {
                    (false, _) => Err(Unfit::Sections),
                    (true, false) => Err(Unfit::Mask),
                    (true, true) => Ok(()),
                };
                assert_eq!(check(n, mask), expected, "{n} {mask:04X}");
            }
        }
    }

    #[test]
    fn settings_are_told_by_their_names() {
        let settings = Settings::new(14, 0x2A55, 300);
        let told = "n 14, options 0, mask 2A55, W 300";
        assert_eq!(settings.to_string(), told);
        let told = told.replace("options 0", "options 1");
        assert_eq!(settings.with_hold().to_string(), told);
    }

    #[test]
    fn options_above_hold_are_what_does_not_fit() {
        for (n, mask, rest) in [
            (2, 3, Ok(())),
            (2, 4, Err(Unfit::Mask)),
            (0, 4, Err(Unfit::Sections)),
        ] {
            let settings = Settings::new(n, mask, 3);
            assert_eq!(settings.check(), rest);
            assert_eq!(settings.with_hold().check(), rest);
            for options in 2..=u8::MAX {
                let unknown = Settings {
                    options,
                    ..settings
                };
                assert_eq!(unknown.check(), Err(Unfit::Options), "{options}");
            }
        }
    }
}
