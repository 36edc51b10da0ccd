//! In fts5's place where there is no libsqlite3 to link: nothing is asked.
use crate::calls::Call;
use crate::words::Bars;
use std::ffi::{CStr, CString};

pub enum Fts5 {}

pub fn version() -> String {
    "none".into()
}

pub fn question(_: &Call) -> Option<CString> {
    None
}

impl Fts5 {
    pub fn new(_: &Bars) -> Option<Fts5> {
        None
    }

    pub fn ask(&self, _: &CStr, _: &mut Vec<u32>) {
        match *self {}
    }
}
