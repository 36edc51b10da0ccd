//! The reply of include/pstp.h, and a refusal's three numbers.

#[repr(C)]
#[derive(Clone, Copy, Debug, PartialEq, Eq)]
pub struct Reply {
    pub kind: u32,
    pub which: u32,
    pub index: u64,
    pub first: u64,
    pub second: u64,
    pub third: u64,
    pub fourth: u64,
}

#[derive(Clone, Copy, Debug, PartialEq, Eq)]
pub struct Refusal {
    pub kind: u32,
    pub which: u32,
    pub index: u64,
}

impl Refusal {
    pub const fn new(kind: u32, which: u32, index: u64) -> Self {
        Refusal { kind, which, index }
    }

    pub const fn of_kind(kind: u32) -> Self {
        Refusal::new(kind, 0, 0)
    }
}

impl Reply {
    /// Document 01's calls say two numbers; the third and fourth are 0.
    pub fn accepted(first: u64, second: u64) -> Self {
        Reply { kind: 0, which: 0, index: 0, first, second, third: 0, fourth: 0 }
    }
}

impl From<Refusal> for Reply {
    fn from(r: Refusal) -> Self {
        Reply { kind: r.kind, which: r.which, index: r.index, ..Reply::accepted(0, 0) }
    }
}
