//! What `include/metroheap.h` declares, but for its shorthands, which no library has.
use std::ffi::c_void;

#[repr(C)]
pub struct Handle {
    pub machine: *mut c_void,
}

#[repr(C)]
#[derive(Clone, Copy)]
pub struct EventNumbers {
    pub kind: u32,
    pub session: u32,
    pub first: u32,
    pub second: u32,
    pub third: u64,
}

#[repr(C)]
#[derive(Clone, Copy, Default)]
pub struct ReplyNumbers {
    pub kind: u32,
    pub numbers: [u64; 9],
}

#[repr(C)]
#[derive(Clone, Copy, Default)]
pub struct ItemNumbers {
    pub kind: u32,
    pub numbers: [u64; 3],
}

#[repr(C)]
#[derive(Clone, Copy, Default)]
pub struct UnitNumbers {
    pub at: u64,
    pub mutator: u64,
    pub collector: u64,
    pub ran: u64,
    pub phase: u64,
}

#[repr(C)]
#[derive(Clone, Copy, Default)]
pub struct DeedNumbers {
    pub kind: u32,
    pub units: u64,
    pub numbers: [u64; 7],
}

pub const VERSION_NUMBER: u32 = 2_000_000;

pub const DONE: i32 = 0;
pub const BLANK: i32 = 1;
pub const WRONG: i32 = 2;
pub const FULL: i32 = 3;
pub const NO_MEMORY: i32 = 4;
pub const BAD_CONFIG: i32 = 6;
pub const SHORT: i32 = 7;
pub const NO_TEXT: i32 = 8;
pub const NO_REPLY: i32 = 9;
pub const NO_ITEM: i32 = 10;
pub const NO_DEEDS: i32 = 11;
pub const DIFFERS: i32 = 12;
pub const IS_WORLD: i32 = 13;

extern "C" {
    pub fn metroheap_version() -> u32;
    pub fn metroheap_open(
        heap: &mut Handle,
        pages: u32,
        quantum: u32,
        trigger: u32,
        every: u32,
        rules: u32,
    ) -> i32;
    pub fn metroheap_open_world(heap: &mut Handle, rules: u32) -> i32;
    pub fn metroheap_close_nonnull(heap: &mut Handle);
    pub fn metroheap_line_nonnull(
        heap: &mut Handle,
        line: *const u8,
        line_length: usize,
        out: *mut u8,
        out_length: usize,
        written: &mut usize,
    ) -> i32;
    pub fn metroheap_last_text_nonnull(
        heap: &mut Handle,
        out: *mut u8,
        out_length: usize,
        written: &mut usize,
    ) -> i32;
    pub fn metroheap_reason_nonnull(
        line: *const u8,
        line_length: usize,
        out: *mut u8,
        out_length: usize,
        written: &mut usize,
    ) -> i32;
    pub fn metroheap_step(heap: &mut Handle, event: &EventNumbers, reply: &mut ReplyNumbers)
        -> i32;
    pub fn metroheap_judge(
        heap: &mut Handle,
        event: &EventNumbers,
        given: &ReplyNumbers,
        right: &mut ReplyNumbers,
    ) -> i32;
    pub fn metroheap_last_reply(heap: &mut Handle, reply: &mut ReplyNumbers) -> i32;
    pub fn metroheap_last_units(heap: &mut Handle, units: &mut UnitNumbers) -> i32;
    pub fn metroheap_dump_item(heap: &mut Handle, index: usize, item: &mut ItemNumbers) -> i32;
    pub fn metroheap_tell(heap: &mut Handle, tells: u32) -> i32;
    pub fn metroheap_deed_item(heap: &mut Handle, index: usize, deed: &mut DeedNumbers) -> i32;
    pub fn metroheap_see_stat(heap: &mut Handle, reply: &mut ReplyNumbers) -> i32;
    pub fn metroheap_see_left(heap: &mut Handle, reply: &mut ReplyNumbers) -> i32;
    pub fn metroheap_see_report(heap: &mut Handle, window: u64, reply: &mut ReplyNumbers) -> i32;
    pub fn metroheap_reserve(heap: &mut Handle, events: usize) -> i32;
    pub fn metroheap_forget(heap: &mut Handle) -> i32;
}
