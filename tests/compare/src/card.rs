//! The proved operations of crates/card_api behind safe types, as c/card.h has them for C: a table and a map, each between guard
//! words; headers and aliases; GridConnect text.

include!(concat!(env!("OUT_DIR"), "/sizes.rs"));

include!(concat!(env!("CARGO_MANIFEST_DIR"), "/../../c/card.rs"));

const GUARD: usize = 16;

/// A number that no operation writes: in the guards, and in a buffer before a call.
pub const MARK: u64 = 0x9E37_79B9_7F4A_7C15;

/// So many words between guards.
#[derive(Clone)]
struct Guarded<const ALL: usize> {
    all: [u64; ALL],
}

impl<const ALL: usize> Guarded<ALL> {
    fn new() -> Self {
        Guarded { all: [MARK; ALL] }
    }

    fn words(&self) -> &[u64] {
        &self.all[GUARD..ALL - GUARD]
    }

    fn words_mut(&mut self) -> &mut [u64] {
        &mut self.all[GUARD..ALL - GUARD]
    }

    fn hold(&self) -> bool {
        self.all[..GUARD].iter().chain(&self.all[ALL - GUARD..]).all(|&word| word == MARK)
    }
}

/// A table.
#[derive(Clone)]
pub struct Card {
    words: Guarded<{ GUARD + CARD_WORDS + GUARD }>,
}

impl Default for Card {
    fn default() -> Self {
        Self::new()
    }
}

impl Card {
    /// All nodes Off.
    pub fn new() -> Card {
        let mut card = Card { words: Guarded::new() };
        unsafe { card_new(card.table()) };
        card
    }

    pub fn words(&self) -> &[u64] {
        self.words.words()
    }

    /// The words, to be damaged by a test.
    pub fn words_mut(&mut self) -> &mut [u64] {
        self.words.words_mut()
    }

    pub fn guards_hold(&self) -> bool {
        self.words.hold()
    }

    fn table(&mut self) -> *mut u64 {
        self.words.words_mut().as_mut_ptr()
    }

    pub fn is_late(&self) -> bool {
        unsafe { card_is_late(self.words().as_ptr()) == 1 }
    }

    pub fn power_on(&mut self, index: usize, id: u64) -> u64 {
        unsafe { card_power_on(self.table(), index, id) }
    }

    pub fn send(&mut self, index: usize, sent: &mut [u64; 3]) -> u64 {
        unsafe { card_send(self.table(), index, sent.as_mut_ptr()) }
    }

    pub fn fail(&mut self, index: usize) -> u64 {
        unsafe { card_fail(self.table(), index) }
    }

    pub fn deliver(&mut self, index: usize) -> u64 {
        unsafe { card_deliver(self.table(), index) }
    }

    pub fn tick(&mut self) -> u64 {
        unsafe { card_tick(self.table()) }
    }

    pub fn foreign(&mut self, kind: u8, header: u32, len: u8, bytes: u64) -> u64 {
        unsafe { card_foreign(self.table(), kind, header, len, bytes) }
    }

    pub fn message(&mut self, index: usize, field: u16, len: u8, bytes: u64) -> u64 {
        unsafe { card_message(self.table(), index, field, len, bytes) }
    }

    pub fn enquiry(&mut self, index: usize, len: u8, bytes: u64) -> u64 {
        unsafe { card_enquiry(self.table(), index, len, bytes) }
    }

    pub fn release(&mut self, index: usize) -> u64 {
        unsafe { card_release(self.table(), index) }
    }

    pub fn link(&mut self, index: usize, state: u8) -> u64 {
        unsafe { card_link(self.table(), index, state) }
    }

    /// An index, 24 for none.
    pub fn choose(&mut self, chosen: &mut [u64; 1]) -> u64 {
        unsafe { card_choose(self.table(), chosen.as_mut_ptr()) }
    }

    /// Generator state, 1 where the first alias is past.
    pub fn read_out(&self, index: usize, out: &mut [u64; 2]) -> u64 {
        unsafe { card_read_out(self.words().as_ptr(), index, out.as_mut_ptr()) }
    }

    pub fn warm_on(&mut self, index: usize, id: u64, flag: u8, state: u64) -> u64 {
        unsafe { card_warm_on(self.table(), index, id, flag, state) }
    }

    pub fn look(&self, index: usize, seen: &mut [u64; 12]) -> u64 {
        unsafe { card_look(self.words().as_ptr(), index, seen.as_mut_ptr()) }
    }

    pub fn inbox(&self, index: usize, place: usize, frame: &mut [u64; 4]) -> u64 {
        unsafe { card_inbox(self.words().as_ptr(), index, place, frame.as_mut_ptr()) }
    }
}

/// A map.
pub struct ProvedMap {
    words: Guarded<{ GUARD + MAP_WORDS + GUARD }>,
}

impl Default for ProvedMap {
    fn default() -> Self {
        Self::new()
    }
}

impl ProvedMap {
    /// No entry.
    pub fn new() -> ProvedMap {
        let mut map = ProvedMap { words: Guarded::new() };
        unsafe { map_new(map.words.words_mut().as_mut_ptr()) };
        map
    }

    pub fn words(&self) -> &[u64] {
        self.words.words()
    }

    pub fn guards_hold(&self) -> bool {
        self.words.hold()
    }

    /// 0, or the refusal's number.
    pub fn note(&mut self, kind: u8, header: u32, len: u8, bytes: u64) -> u64 {
        unsafe { map_note(self.words.words_mut().as_mut_ptr(), kind, header, len, bytes) }
    }

    /// Node ID, entries compared.
    pub fn id_of(&self, alias: u16, found: &mut [u64; 2]) -> u64 {
        unsafe { map_id_of(self.words().as_ptr(), alias, found.as_mut_ptr()) }
    }

    /// Alias, entries compared.
    pub fn alias_of(&self, id: u64, found: &mut [u64; 2]) -> u64 {
        unsafe { map_alias_of(self.words().as_ptr(), id, found.as_mut_ptr()) }
    }
}

pub fn write_header(bit: u8, class: u8, field: u16, alias: u16, header: &mut [u64; 1]) -> u64 {
    unsafe { lcc_write_header(bit, class, field, alias, header.as_mut_ptr()) }
}

/// Type, field, alias, kind, number, section, bit 28.
pub fn read_header(header: u32, parts: &mut [u64; 7]) -> u64 {
    unsafe { lcc_read_header(header, parts.as_mut_ptr()) }
}

pub fn first_alias(id: u64, alias: &mut [u64; 1]) -> u64 {
    unsafe { lcc_first_alias(id, alias.as_mut_ptr()) }
}

/// State, alias.
pub fn next_alias(state: u64, next: &mut [u64; 2]) -> u64 {
    unsafe { lcc_next_alias(state, next.as_mut_ptr()) }
}

/// The text's length.
pub fn write_grid(text: &mut [u8], header: u32, len: u8, bytes: u64, written: &mut [u64; 1]) -> u64 {
    unsafe { grid_write(text.as_mut_ptr(), text.len(), header, len, bytes, written.as_mut_ptr()) }
}

/// Header, length, data.
pub fn read_grid(text: &[u8], frame: &mut [u64; 3]) -> u64 {
    unsafe { grid_read(text.as_ptr(), text.len(), frame.as_mut_ptr()) }
}
