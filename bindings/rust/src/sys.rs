//! The calls as `include/flowc.h` declares them.

use std::ffi::c_void;

pub const DONE: u32 = 0;
pub const REFUSED: u32 = 1;
pub const NO_HOST: u32 = 2;
pub const TOO_SHORT: u32 = 4;
pub const NO_PRINCIPAL: u32 = u32::MAX;
pub const PRINCIPAL_NO_MEMORY: u32 = u32::MAX - 1;

#[repr(C)]
pub struct Outcome {
    pub status: u32,
    pub number: u32,
    pub text: u32,
    pub procedure: u32,
    pub line: usize,
    pub column: usize,
    pub offset: usize,
    pub length: usize,
}

/// The fields of `flowc_answer`, whose first ones are those of an outcome.
#[repr(C)]
pub struct Answer {
    pub end: Outcome,
    pub id: u64,
    pub taken: u64,
    pub run: u32,
    pub thrown: u32,
}

/// What says how a call ended.
pub trait Said {
    fn end(&self) -> &Outcome;
}

impl Said for Outcome {
    fn end(&self) -> &Outcome {
        self
    }
}

impl Said for Answer {
    fn end(&self) -> &Outcome {
        &self.end
    }
}

#[repr(C)]
pub struct Handle {
    pub at: *mut c_void,
    pub full: bool,
}

#[link(name = "flowc", kind = "static")]
extern "C" {
    pub fn flowc_version(out: *mut u8, out_size: usize) -> Outcome;
    pub fn flowc_check(h: *const u8, hn: usize, s: *const u8, sn: usize, out: *mut u8, out_size: usize) -> Outcome;
    pub fn flowc_compile(h: *const u8, hn: usize, s: *const u8, sn: usize, out: *mut u8, out_size: usize) -> Outcome;
    pub fn flowc_explain(h: *const u8, hn: usize, s: *const u8, sn: usize, out: *mut u8, out_size: usize) -> Outcome;
    pub fn flowc_list(m: *const u8, mn: usize, out: *mut u8, out_size: usize) -> Outcome;
    pub fn flowc_principal(m: *const u8, mn: usize, name: *const u8, name_size: usize) -> u32;
    pub fn flowc_host_new(host: *mut Handle) -> u32;
    pub fn flowc_host_free(host: *mut Handle);
    pub fn flowc_host_open(host: *mut Handle, m: *const u8, mn: usize, w: *const u8, wn: usize, out: *mut u8, out_size: usize) -> Answer;
    pub fn flowc_host_open_under(
        host: *mut Handle,
        m: *const u8,
        mn: usize,
        w: *const u8,
        wn: usize,
        h: *const u8,
        hn: usize,
        out: *mut u8,
        out_size: usize,
    ) -> Answer;
    pub fn flowc_host_turn(host: *mut Handle, id: u64, steps: u64) -> Answer;
    pub fn flowc_host_status(host: *mut Handle, id: u64) -> Answer;
    pub fn flowc_host_view(host: *mut Handle, id: u64, principal: u32, out: *mut crate::Pair, out_size: usize) -> Answer;
    pub fn flowc_host_sent(host: *mut Handle, id: u64, out: *mut crate::Pair, out_size: usize) -> Answer;
    pub fn flowc_host_close(host: *mut Handle, id: u64) -> Answer;
}
