//! The functions of pool.h, declared for Rust. A program that includes this file uses those that it needs.
#![allow(dead_code, non_camel_case_types)]

/// A slot of a table: a return that waits, or all 0. A table has eight.
#[repr(C)]
#[derive(Clone, Copy, Debug, Default, PartialEq, Eq)]
pub struct pool_slot {
    pub id: u32,
    /// 0 free, 1 awaits round one, 2 awaits round two, 3 awaits entry.
    pub stage: u32,
    pub r: u64,
    pub s: u64,
    pub d: u64,
    pub e: u64,
}

#[link(name = "pool", kind = "static")]
extern "C" {
    pub fn pool_sizes(
        sheet: *const u8,
        sheet_len: usize,
        columns: *mut u32,
        entries: *mut u32,
        published: *mut u32,
        wires: *mut u32,
        multiplications: *mut u32,
        tests: *mut u32,
        circuit_bytes: *mut u32,
        share_bytes: *mut u32,
        greatest_returns: *mut u32,
    ) -> u32;

    pub fn pool_circuit(sheet: *const u8, sheet_len: usize, out: *mut u8, out_len: usize, written: *mut usize) -> u32;

    pub fn pool_read_circuit(
        entries: u32,
        circuit: *const u8,
        circuit_len: usize,
        wires: *mut u32,
        multiplications: *mut u32,
        tests: *mut u32,
    ) -> u32;

    pub fn pool_every_return(
        sheet: *const u8,
        sheet_len: usize,
        out: *mut u8,
        out_len: usize,
        lists: *mut u32,
        written: *mut usize,
    ) -> u32;

    pub fn pool_make(
        sheet: *const u8,
        sheet_len: usize,
        servers: u32,
        id: u32,
        values: *const u8,
        values_len: usize,
        random: *const u8,
        random_len: usize,
        out: *mut u8,
        out_len: usize,
        written: *mut usize,
    ) -> u32;

    pub fn pool_make_seeded(
        sheet: *const u8,
        sheet_len: usize,
        servers: u32,
        id: u32,
        values: *const u8,
        values_len: usize,
        random: *const u8,
        random_len: usize,
        seeds: *const u8,
        seeds_len: usize,
        out: *mut u8,
        out_len: usize,
        written: *mut usize,
    ) -> u32;

    pub fn pool_open(
        servers: u32,
        own: u32,
        sheet: *const u8,
        sheet_len: usize,
        returns: u32,
        least: u32,
        table: *mut u8,
        table_len: usize,
        slots: *mut pool_slot,
        slots_len: usize,
        elements: *mut u32,
        elements_len: usize,
        written: *mut usize,
    ) -> u32;

    pub fn pool_share(
        table: *const u8,
        table_len: usize,
        slots: *mut pool_slot,
        slots_len: usize,
        elements: *mut u32,
        elements_len: usize,
        message: *const u8,
        message_len: usize,
        r: u64,
        s: u64,
        out: *mut u8,
        out_len: usize,
        written: *mut usize,
    ) -> u32;

    pub fn pool_round_one(
        table: *const u8,
        table_len: usize,
        slots: *mut pool_slot,
        slots_len: usize,
        elements: *const u32,
        elements_len: usize,
        id: u32,
        joined: *const u8,
        joined_len: usize,
        out: *mut u8,
        out_len: usize,
        written: *mut usize,
    ) -> u32;

    pub fn pool_round_two(
        table: *mut u8,
        table_len: usize,
        slots: *mut pool_slot,
        slots_len: usize,
        elements: *mut u32,
        elements_len: usize,
        id: u32,
        joined: *const u8,
        joined_len: usize,
        accepted: *mut u32,
    ) -> u32;

    pub fn pool_enter(
        table: *mut u8,
        table_len: usize,
        slots: *mut pool_slot,
        slots_len: usize,
        elements: *mut u32,
        elements_len: usize,
        id: u32,
    ) -> u32;

    pub fn pool_drop(
        table: *mut u8,
        table_len: usize,
        slots: *mut pool_slot,
        slots_len: usize,
        elements: *mut u32,
        elements_len: usize,
        id: u32,
    ) -> u32;

    pub fn pool_close(
        table: *mut u8,
        table_len: usize,
        slots: *const pool_slot,
        slots_len: usize,
        elements: *const u32,
        elements_len: usize,
        out: *mut u8,
        out_len: usize,
        written: *mut usize,
    ) -> u32;

    pub fn pool_state(
        table: *const u8,
        table_len: usize,
        slots: *const pool_slot,
        slots_len: usize,
        elements: *const u32,
        elements_len: usize,
        servers: *mut u32,
        own: *mut u32,
        returns: *mut u32,
        least: *mut u32,
        closed: *mut u32,
        decided: *mut u32,
        entered: *mut u32,
        waiting: *mut u32,
    ) -> u32;

    pub fn pool_join(
        servers: u32,
        sheet: *const u8,
        sheet_len: usize,
        returns: u32,
        joined: *const u8,
        joined_len: usize,
        out: *mut u8,
        out_len: usize,
        accepted: *mut u32,
        written: *mut usize,
    ) -> u32;

    pub fn pool_line(
        servers: u32,
        sheet: *const u8,
        sheet_len: usize,
        returns: u32,
        joined: *const u8,
        joined_len: usize,
        column: u32,
        determinant: *mut i64,
        slope: *mut i64,
        intercept: *mut i64,
    ) -> u32;

    pub fn pool_shelve(
        messages: u32,
        width: u32,
        run: *const u8,
        run_len: usize,
        out: *mut u8,
        out_len: usize,
        written: *mut usize,
    ) -> u32;

    pub fn pool_unshelve(
        messages: u32,
        width: u32,
        run: *const u8,
        run_len: usize,
        out: *mut u8,
        out_len: usize,
        written: *mut usize,
    ) -> u32;
}
