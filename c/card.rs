// The operations of c/card.h for Rust, held to the Rattle sources by c/constants. The tool (host) and the comparison (tests/compare)
// include this file, and each uses some. They are proved to return, and to write within what is lent alone.
#[allow(dead_code)]
extern "C" {
    fn card_new(table: *mut u64);
    fn card_is_late(table: *const u64) -> u64;
    fn card_power_on(table: *mut u64, index: usize, id: u64) -> u64;
    fn card_warm_on(table: *mut u64, index: usize, id: u64, flag: u8, state: u64) -> u64;
    fn card_send(table: *mut u64, index: usize, sent: *mut u64) -> u64;
    fn card_fail(table: *mut u64, index: usize) -> u64;
    fn card_deliver(table: *mut u64, index: usize) -> u64;
    fn card_tick(table: *mut u64) -> u64;
    fn card_foreign(table: *mut u64, kind: u8, header: u32, len: u8, bytes: u64) -> u64;
    fn card_message(table: *mut u64, index: usize, field: u16, len: u8, bytes: u64) -> u64;
    fn card_enquiry(table: *mut u64, index: usize, len: u8, bytes: u64) -> u64;
    fn card_release(table: *mut u64, index: usize) -> u64;
    fn card_link(table: *mut u64, index: usize, state: u8) -> u64;
    fn card_choose(table: *mut u64, chosen: *mut u64) -> u64;
    fn card_read_out(table: *const u64, index: usize, out: *mut u64) -> u64;
    fn card_look(table: *const u64, index: usize, seen: *mut u64) -> u64;
    fn card_inbox(table: *const u64, index: usize, place: usize, frame: *mut u64) -> u64;
    fn map_new(map: *mut u64);
    fn map_note(map: *mut u64, kind: u8, header: u32, len: u8, bytes: u64) -> u64;
    fn map_id_of(map: *const u64, alias: u16, found: *mut u64) -> u64;
    fn map_alias_of(map: *const u64, id: u64, found: *mut u64) -> u64;
    fn lcc_write_header(bit: u8, class: u8, field: u16, alias: u16, header: *mut u64) -> u64;
    fn lcc_read_header(header: u32, parts: *mut u64) -> u64;
    fn lcc_first_alias(id: u64, alias: *mut u64) -> u64;
    fn lcc_next_alias(state: u64, next: *mut u64) -> u64;
    fn grid_write(text: *mut u8, room: usize, header: u32, len: u8, bytes: u64, written: *mut u64) -> u64;
    fn grid_read(text: *const u8, length: usize, frame: *mut u64) -> u64;
}
