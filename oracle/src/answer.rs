//! What a call of the library answers: `sid_filter_answer` of include/sid_filter.h.

#[repr(C)]
#[derive(Clone, Copy, Debug, PartialEq)]
pub struct Answer {
    pub number: u32,
    pub events: u32,
    pub samples: u32,
    pub buffer: u32,
    pub place: u32,
}
