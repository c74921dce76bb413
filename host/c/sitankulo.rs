//! include/sitankulo.h in Rust. What links the library in stands elsewhere.

#![allow(dead_code)]

// refusals
pub const ADDRESS_INVALID: u32 = 1;
pub const ZERO_LENGTH_INVALID: u32 = 2;
pub const FIFO_EXCEEDED: u32 = 3;
pub const VERSION: u32 = 4;
pub const SHAPE: u32 = 5;
pub const SIZE: u32 = 6;
pub const ROOM: u32 = 7;
pub const EXECUTION_INCOMPLETE: u32 = 8;
pub const ACKNOWLEDGE_CHECK_FAILED: u32 = 9;
pub const ARBITRATION_LOST: u32 = 10;
pub const TIMEOUT: u32 = 11;
pub const OUT_OF_TURN: u32 = 12;
pub const CLOCK_RANGE: u32 = 13;
pub const LIST_REFUSED: u32 = 14;

// answers that are no refusals
pub const STUCK: u32 = 247;
pub const UNANSWERED: u32 = 248;
pub const GIVEN_UP: u32 = 249;
pub const SPENT: u32 = 250;
pub const TAPE_OVER: u32 = 251;
pub const CLOCK_ENDED: u32 = 252;
pub const CLEAR: u32 = 253;
pub const NONE: u32 = 254;
pub const PENDING: u32 = 255;

unsafe extern "C" {
    pub fn sitankulo_build_write(
        address: u32,
        bytes: *const u8,
        n: usize,
        flags: u8,
        words: *mut u8,
        words_room: usize,
        fifo: *mut u8,
        fifo_room: usize,
    ) -> u32;
    pub fn sitankulo_build_read(
        address: u32,
        n: usize,
        flags: u8,
        words: *mut u8,
        words_room: usize,
        fifo: *mut u8,
        fifo_room: usize,
    ) -> u32;
    pub fn sitankulo_begin(
        record: *mut u8,
        record_room: usize,
        deadline: u8,
        duration: u64,
        address: u32,
        script: *const u8,
        script_length: usize,
        read_room: usize,
        busy: u8,
        time: u64,
    ) -> u32;
    pub fn sitankulo_next(
        record: *mut u8,
        record_length: usize,
        deadline: u8,
        duration: u64,
        address: u32,
        script: *const u8,
        script_length: usize,
        time: u64,
        words: *mut u8,
        words_room: usize,
        fifo: *mut u8,
        fifo_room: usize,
    ) -> u32;
    pub fn sitankulo_complete(
        record: *mut u8,
        record_length: usize,
        address: u32,
        script: *const u8,
        script_length: usize,
        bits: u8,
        commands: *const u8,
        commands_length: usize,
        time: u64,
        received: *const u8,
        received_length: usize,
        buffer: *mut u8,
        buffer_room: usize,
    ) -> u32;
    pub fn sitankulo_abandon(
        record: *mut u8,
        record_length: usize,
        bits: u8,
        commands: *const u8,
        commands_length: usize,
        time: u64,
    ) -> u32;
    pub fn sitankulo_classify(
        bits: u8,
        commands: *const u8,
        commands_length: usize,
        time: u64,
        polled: u8,
        limited: u8,
        due: u64,
    ) -> u32;
    pub fn sitankulo_clear_fresh(
        clear: *mut u8,
        clear_room: usize,
        pins: u8,
        time: u64,
        changes: *mut u8,
        changes_room: usize,
    ) -> u32;
    pub fn sitankulo_clear_step(
        clear: *mut u8,
        clear_length: usize,
        pins: u8,
        time: u64,
        sda: u8,
        changes: *mut u8,
        changes_room: usize,
    ) -> u32;
    pub fn sitankulo_clear_run(
        clear: *mut u8,
        clear_length: usize,
        pins: u8,
        reset: u8,
        start: u64,
        limit: u64,
        budget: usize,
        clocks: *const u64,
        clocks_length: usize,
        levels: *const u8,
        levels_length: usize,
        changes: *mut u8,
        changes_room: usize,
        report: *mut u8,
        report_room: usize,
    ) -> u32;
    pub fn sitankulo_inspect(
        words: *const u8,
        words_length: usize,
        fifo: *const u8,
        fifo_length: usize,
        phase: u32,
    ) -> u32;
    pub fn sitankulo_model_run(
        words: *const u8,
        words_length: usize,
        fifo: *const u8,
        fifo_length: usize,
        phase: u32,
        sends: *const u8,
        sends_length: usize,
        refuses: usize,
        received: *mut u8,
        received_room: usize,
        events: *mut u8,
        events_room: usize,
    ) -> u32;
    pub fn sitankulo_refusal_name(number: u8, text: *mut u8, text_room: usize) -> u32;
}
