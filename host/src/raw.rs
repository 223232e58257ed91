//! The exports of the crates `host_calls`, `place_tables`, `place_calls`, `place_vacuum`, `place_snapshots`, `place_pins` and
//! `place_batch`. A slice is two arguments there: a pointer and a length, in bytes, words or versions.

unsafe extern "C" {
    pub fn sockhurdle_settled(xmax: u64, list: *const u8, list_len: usize, id: u64) -> u64;
    pub fn sockhurdle_usable(xmax: u64, list: *const u8, list_len: usize, id: u64, own: u64)
    -> u64;
    pub fn sockhurdle_check_image(image: *const u8, image_len: usize) -> u64;

    pub safe fn sockhurdle_words() -> usize;
    pub fn sockhurdle_fresh(table: *mut u64, table_len: usize) -> u64;
    pub fn sockhurdle_check(table: *const u64, table_len: usize) -> u64;

    pub fn sockhurdle_begin(
        table: *mut u64,
        table_len: usize,
        number: u64,
        out: *mut u64,
        out_len: usize,
    ) -> u64;
    pub fn sockhurdle_end(
        table: *mut u64,
        table_len: usize,
        slot: u16,
        id: u64,
        out: *mut u64,
        out_len: usize,
    ) -> u64;
    pub fn sockhurdle_stamp(
        table: *mut u64,
        table_len: usize,
        number: u64,
        out: *mut u64,
        out_len: usize,
    ) -> u64;
    pub fn sockhurdle_finish(
        table: *mut u64,
        table_len: usize,
        slot: u16,
        id: u64,
        number: u64,
        out: *mut u64,
        out_len: usize,
    ) -> u64;

    pub fn sockhurdle_snap(
        table: *mut u64,
        table_len: usize,
        clock: u64,
        sample: u64,
        out: *mut u64,
        out_len: usize,
        ids: *mut u64,
        ids_len: usize,
    ) -> u64;
    pub fn sockhurdle_own(
        table: *mut u64,
        table_len: usize,
        slot: u16,
        id: u64,
        clock: u64,
        sample: u64,
        out: *mut u64,
        out_len: usize,
        ids: *mut u64,
        ids_len: usize,
    ) -> u64;
    pub fn sockhurdle_pin(
        table: *mut u64,
        table_len: usize,
        clock: u64,
        sample: u64,
        out: *mut u64,
        out_len: usize,
        ids: *mut u64,
        ids_len: usize,
    ) -> u64;
    pub fn sockhurdle_unpin(
        table: *mut u64,
        table_len: usize,
        pin: u16,
        out: *mut u64,
        out_len: usize,
    ) -> u64;

    pub fn sockhurdle_oldest(
        table: *mut u64,
        table_len: usize,
        clock: u64,
        sample: u64,
        out: *mut u64,
        out_len: usize,
    ) -> u64;
    pub fn sockhurdle_vacuum(
        table: *mut u64,
        table_len: usize,
        clock: u64,
        sample: u64,
        out: *mut u64,
        out_len: usize,
    ) -> u64;

    pub fn sockhurdle_batch(
        line: u64,
        versions: *const [u64; 2],
        versions_len: usize,
        run: *mut u8,
        run_len: usize,
        out: *mut u64,
        out_len: usize,
    ) -> u64;
}
