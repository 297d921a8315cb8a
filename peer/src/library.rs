//! The proved library, as `include/chainplater.h` declares it. All that is unsafe
//! in this package is here.
//!
//! What the header asks of a caller follows from the types of the wrappers. Every
//! pointer comes from a reference, so none is null, not even of an empty slice; it
//! points to as many bytes, or entries of a list, as its parameter says, because
//! arrays have that length and slices go with theirs; and a list of `u16` or `u32` is
//! where such numbers may be. What is written to is lent by `&mut`, so it overlaps
//! nothing else.
//! The library keeps nothing after a call and has no state.

#![allow(unsafe_code)]

use crate::door::{
    Door, Tables, CHANGE, CHANGES, CONTENTS, DECODED, ENCODED, K1, PAGE, RECORD, SIZE, STEP,
    VERDICT,
};
use crate::settings::Settings;

/// As in the header, with its `size_t` as `usize`.
mod declared {
    unsafe extern "C" {
        pub fn chainplater_fresh(n: u8, options: u8, mask: u16, wait: u16, record: *mut u8) -> u8;

        pub fn chainplater_k1(k1: u8, out: *mut u8);

        pub fn chainplater_decode(n: u8, k1: u8, k2: u8, out: *mut u8) -> u8;

        pub fn chainplater_encode(
            n: u8,
            code: u8,
            channel: u8,
            bridged: u8,
            remote: u8,
            out: *mut u8,
        ) -> u8;

        pub fn chainplater_step(
            record: *const u8,
            k1: u8,
            k2: u8,
            conditions: *const u8,
            count: usize,
            command: u8,
            channel: u8,
            out: *mut u8,
        ) -> u8;

        pub fn chainplater_judge(
            n: u8,
            options: u8,
            mask: u16,
            wait: u16,
            capture: *const u8,
            length: usize,
            out: *mut u8,
        ) -> u8;

        pub fn chainplater_causes(
            n: u8,
            options: u8,
            mask: u16,
            wait: u16,
            capture: *const u8,
            length: usize,
            conditions: *mut u32,
            conditions_room: usize,
            commands: *mut u16,
            commands_room: usize,
            out: *mut u8,
        ) -> u8;

        pub fn chainplater_switches(
            capture: *const u8,
            length: usize,
            listed: u16,
            count: u16,
            table: *mut u16,
            room: usize,
            out: *mut u8,
        ) -> u8;

        pub fn chainplater_last_change(
            capture: *const u8,
            length: usize,
            list: *const u16,
            count: usize,
            step: u16,
            out: *mut u8,
        ) -> u8;

        pub fn chainplater_read(book: *const u8, length: usize, out: *mut u8) -> u8;

        pub fn chainplater_write(
            contents: *const u8,
            bodies: *const u8,
            length: usize,
            out: *mut u8,
            room: usize,
            size: *mut u8,
        ) -> u8;

        pub fn chainplater_table(book: *const u8, length: usize, out: *mut u8) -> usize;
    }
}

pub struct Library;

/// The library, since this package was built with it.
pub fn linked() -> Option<Library> {
    Some(Library)
}

impl Door for Library {
    #[inline]
    fn fresh(&self, settings: Settings, record: &mut [u8; RECORD]) -> u8 {
        let Settings {
            n,
            options,
            mask,
            w,
        } = settings;
        // SAFETY: `record` has the 12 bytes that are written.
        unsafe { declared::chainplater_fresh(n, options, mask, w, record.as_mut_ptr()) }
    }

    #[inline]
    fn k1(&self, k1: u8, out: &mut [u8; K1]) {
        // SAFETY: `out` has the 4 bytes that are written.
        unsafe { declared::chainplater_k1(k1, out.as_mut_ptr()) }
    }

    #[inline]
    fn decode(&self, n: u8, k1: u8, k2: u8, out: &mut [u8; DECODED]) -> u8 {
        // SAFETY: `out` has the 6 bytes that are written.
        unsafe { declared::chainplater_decode(n, k1, k2, out.as_mut_ptr()) }
    }

    #[inline]
    fn encode(
        &self,
        n: u8,
        code: u8,
        channel: u8,
        bridged: u8,
        remote: u8,
        out: &mut [u8; ENCODED],
    ) -> u8 {
        let out = out.as_mut_ptr();
        // SAFETY: `out` has the 2 bytes that are written.
        unsafe { declared::chainplater_encode(n, code, channel, bridged, remote, out) }
    }

    #[inline]
    fn step(
        &self,
        record: &[u8; RECORD],
        [k1, k2]: [u8; 2],
        conditions: &[u8],
        command: u8,
        channel: u8,
        out: &mut [u8; STEP],
    ) -> u8 {
        // SAFETY: `record` has the 12 bytes and `conditions` the `count` bytes that
        // are read, `out` the 19 that are written; it overlaps neither.
        unsafe {
            declared::chainplater_step(
                record.as_ptr(),
                k1,
                k2,
                conditions.as_ptr(),
                conditions.len(),
                command,
                channel,
                out.as_mut_ptr(),
            )
        }
    }

    #[inline]
    fn judge(&self, settings: Settings, capture: &[u8], out: &mut [u8; VERDICT]) -> u8 {
        let Settings {
            n,
            options,
            mask,
            w,
        } = settings;
        let (start, length) = (capture.as_ptr(), capture.len());
        // SAFETY: `capture` has the `length` bytes that are read, `out` the 3 that
        // are written; they do not overlap.
        unsafe { declared::chainplater_judge(n, options, mask, w, start, length, out.as_mut_ptr()) }
    }

    #[inline]
    fn causes(
        &self,
        settings: Settings,
        capture: &[u8],
        tables: Tables,
        out: &mut [u8; VERDICT],
    ) -> u8 {
        let Tables {
            conditions,
            commands,
        } = tables;
        // SAFETY: `capture` has the `length` bytes that are read, `conditions` and
        // `commands` as many words as their rooms say, which are read and written, `out`
        // the 3 bytes that are written; none of these three overlaps any other.
        unsafe {
            declared::chainplater_causes(
                settings.n,
                settings.options,
                settings.mask,
                settings.w,
                capture.as_ptr(),
                capture.len(),
                conditions.as_mut_ptr(),
                conditions.len(),
                commands.as_mut_ptr(),
                commands.len(),
                out.as_mut_ptr(),
            )
        }
    }

    #[inline]
    fn switches(
        &self,
        capture: &[u8],
        listed: u16,
        count: u16,
        table: &mut [u16],
        out: &mut [u8; CHANGES],
    ) -> u8 {
        // SAFETY: `capture` has the `length` bytes that are read, `table` the `room`
        // entries that are read and written, `out` the 2 bytes that are written; neither
        // of these two overlaps any other.
        unsafe {
            declared::chainplater_switches(
                capture.as_ptr(),
                capture.len(),
                listed,
                count,
                table.as_mut_ptr(),
                table.len(),
                out.as_mut_ptr(),
            )
        }
    }

    #[inline]
    fn last_change(&self, capture: &[u8], list: &[u16], step: u16, out: &mut [u8; CHANGE]) -> u8 {
        // SAFETY: `capture` has the `length` bytes and `list` the `count` entries that
        // are read, `out` the 3 bytes that are written; it overlaps neither.
        unsafe {
            declared::chainplater_last_change(
                capture.as_ptr(),
                capture.len(),
                list.as_ptr(),
                list.len(),
                step,
                out.as_mut_ptr(),
            )
        }
    }

    #[inline]
    fn read(&self, book: &[u8], out: &mut [u8; CONTENTS]) -> u8 {
        // SAFETY: `book` has the `length` bytes that are read, `out` the 769 that
        // are written; they do not overlap.
        unsafe { declared::chainplater_read(book.as_ptr(), book.len(), out.as_mut_ptr()) }
    }

    #[inline]
    fn write(
        &self,
        contents: &[u8; CONTENTS],
        bodies: &[u8],
        out: &mut [u8],
        size: &mut [u8; SIZE],
    ) -> u8 {
        // SAFETY: `contents` has the 769 bytes and `bodies` the `length` bytes that
        // are read, `out` the `room` bytes and `size` the 4 that may be written;
        // neither of these overlaps any other.
        unsafe {
            declared::chainplater_write(
                contents.as_ptr(),
                bodies.as_ptr(),
                bodies.len(),
                out.as_mut_ptr(),
                out.len(),
                size.as_mut_ptr(),
            )
        }
    }

    #[inline]
    fn table(&self, book: &[u8], out: &mut [u8; PAGE]) -> usize {
        // SAFETY: `book` has the `length` bytes that are read, `out` the 2048 of which
        // some are written; they do not overlap.
        unsafe { declared::chainplater_table(book.as_ptr(), book.len(), out.as_mut_ptr()) }
    }
}
