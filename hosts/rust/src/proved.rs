//! What libpeashuttle.a exports: functions that take blocks as they are, and slices as a pointer and a length. A call is safe
//! where each pointer is that of a slice of that length, which is never null.

use crate::{Run, Table, Track, Work};

extern "C" {
    pub fn peashuttle_proved_list(input: *const u8, input_length: usize, out: *mut u8, out_length: usize) -> usize;

    pub fn peashuttle_proved_check(text: *const u8, text_length: usize, line: &mut usize, table: &mut Table) -> u32;

    pub fn peashuttle_proved_start(run: &mut Run);

    pub fn peashuttle_proved_step(address: *const u8, address_length: usize, table: &Table, run: &mut Run) -> u32;

    pub fn peashuttle_proved_play(
        script: *const u8,
        script_length: usize,
        at: &mut usize,
        table: &Table,
        run: &mut Run,
    ) -> u32;

    pub fn peashuttle_proved_offers(events: &mut u64, table: &Table, run: &Run) -> u32;

    pub fn peashuttle_proved_status(table: &Table, run: &Run) -> u32;

    pub fn peashuttle_proved_save(
        text: *mut u8,
        text_length: usize,
        length: &mut usize,
        table: &Table,
        run: &Run,
        work: &mut Work,
    ) -> u32;

    pub fn peashuttle_proved_read(
        text: *const u8,
        text_length: usize,
        line: &mut usize,
        table: &Table,
        found: &mut Track,
        work: &mut Work,
    ) -> u32;

    pub fn peashuttle_proved_write(
        text: *mut u8,
        text_length: usize,
        length: &mut usize,
        table: &Table,
        found: &Track,
    ) -> u32;
}
