//! The C functions of the link over the reference, so that the program that measures the library
//! measures the reference too. Only those that it calls are here.

use std::slice::{from_raw_parts, from_raw_parts_mut};

/// # Safety
/// `table` has `n` entries.
#[no_mangle]
pub unsafe extern "C" fn vb_start_table(table: *mut i32, n: usize) -> u32 {
    reference::start_table(from_raw_parts_mut(table, n))
}

/// # Safety
/// `state` has `n` bytes.
#[no_mangle]
pub unsafe extern "C" fn vb_start_link(state: *mut u8, n: usize) -> u32 {
    reference::start_link(from_raw_parts_mut(state, n))
}

/// # Safety
/// `table` has `n` entries.
#[no_mangle]
pub unsafe extern "C" fn vb_put(table: *mut i32, n: usize, item: u32, value: i32) -> u32 {
    reference::put(from_raw_parts_mut(table, n), item, value)
}

/// # Safety
/// Each array has the length behind it, and none overlaps another.
#[no_mangle]
pub unsafe extern "C" fn vb_byte(
    state: *mut u8,
    state_length: usize,
    table: *mut i32,
    table_length: usize,
    reply: *mut u8,
    reply_length: usize,
    address: u8,
    structure: u8,
    now: u32,
    byte: u8,
) -> u32 {
    let state = from_raw_parts_mut(state, state_length);
    let table = from_raw_parts_mut(table, table_length);
    let reply = from_raw_parts_mut(reply, reply_length);
    reference::byte(state, table, reply, address, structure, now, byte)
}

/// A function of a Modbus line, whose frames or lines come with the same arguments.
macro_rules! modbus {
    ($name:ident, $of:path) => {
        /// # Safety
        /// Each array has the length behind it, and none overlaps another.
        #[no_mangle]
        pub unsafe extern "C" fn $name(
            table: *mut i32,
            table_length: usize,
            reply: *mut u8,
            reply_length: usize,
            address: u8,
            received: *const u8,
            received_length: usize,
        ) -> u32 {
            let table = from_raw_parts_mut(table, table_length);
            let reply = from_raw_parts_mut(reply, reply_length);
            let received = from_raw_parts(received, received_length);
            $of(table, reply, address, received)
        }
    };
}

modbus!(vb_rtu, reference::rtu);
modbus!(vb_ascii, reference::ascii);

/// # Safety
/// Each array has the length behind it, and none overlaps another.
#[no_mangle]
pub unsafe extern "C" fn vb_playback(
    table: *mut i32,
    table_length: usize,
    address: u8,
    capture: *const u8,
    capture_length: usize,
) -> u32 {
    let table = from_raw_parts_mut(table, table_length);
    reference::playback(table, address, from_raw_parts(capture, capture_length))
}

/// # Safety
/// `capture` has `n` bytes; `place` and `length` are a number each, and none overlaps another.
#[no_mangle]
pub unsafe extern "C" fn vb_show(
    capture: *const u8,
    n: usize,
    frame: u32,
    place: *mut u32,
    length: *mut u32,
) -> u32 {
    reference::show(from_raw_parts(capture, n), frame, &mut *place, &mut *length)
}

/// # Safety
/// `capture` has `n` bytes; `value` and `records` are a number each, and none overlaps another.
#[no_mangle]
pub unsafe extern "C" fn vb_last_write(
    capture: *const u8,
    n: usize,
    address: u8,
    item: u32,
    value: *mut i32,
    records: *mut u32,
) -> u32 {
    let capture = from_raw_parts(capture, n);
    reference::last_write(capture, address, item, &mut *value, &mut *records)
}
