//! In place of the library, where this package was built without it. There is no
//! value of this type, so nothing here is ever called.

use crate::door::{
    Door, Tables, CHANGE, CHANGES, CONTENTS, DECODED, ENCODED, K1, PAGE, RECORD, SIZE, STEP,
    VERDICT,
};
use crate::settings::Settings;

pub enum Library {}

pub fn linked() -> Option<Library> {
    None
}

impl Door for Library {
    fn fresh(&self, _: Settings, _: &mut [u8; RECORD]) -> u8 {
        match *self {}
    }

    fn k1(&self, _: u8, _: &mut [u8; K1]) {
        match *self {}
    }

    fn decode(&self, _: u8, _: u8, _: u8, _: &mut [u8; DECODED]) -> u8 {
        match *self {}
    }

    fn encode(&self, _: u8, _: u8, _: u8, _: u8, _: u8, _: &mut [u8; ENCODED]) -> u8 {
        match *self {}
    }

    fn step(&self, _: &[u8; RECORD], _: [u8; 2], _: &[u8], _: u8, _: u8, _: &mut [u8; STEP]) -> u8 {
        match *self {}
    }

    fn judge(&self, _: Settings, _: &[u8], _: &mut [u8; VERDICT]) -> u8 {
        match *self {}
    }

    fn causes(&self, _: Settings, _: &[u8], _: Tables, _: &mut [u8; VERDICT]) -> u8 {
        match *self {}
    }

    fn switches(&self, _: &[u8], _: u16, _: u16, _: &mut [u16], _: &mut [u8; CHANGES]) -> u8 {
        match *self {}
    }

    fn last_change(&self, _: &[u8], _: &[u16], _: u16, _: &mut [u8; CHANGE]) -> u8 {
        match *self {}
    }

    fn read(&self, _: &[u8], _: &mut [u8; CONTENTS]) -> u8 {
        match *self {}
    }

    fn write(&self, _: &[u8; CONTENTS], _: &[u8], _: &mut [u8], _: &mut [u8; SIZE]) -> u8 {
        match *self {}
    }

    fn table(&self, _: &[u8], _: &mut [u8; PAGE]) -> usize {
        match *self {}
    }
}
