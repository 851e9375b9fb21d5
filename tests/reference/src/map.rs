//! The map of foreign aliases: 64 entries, alias with Node ID, oldest first.

use crate::alias::Alias;
use crate::frame::{Frame, EXTENDED};
use crate::header::{self, Kind};
use crate::refusal::Refusal;

#[derive(Clone, Copy, Debug, PartialEq, Eq)]
pub struct Entry {
    pub alias: Alias,
    pub id: u64,
}

/// What a look-up found, and how many entries it compared: the hit's place from the oldest, which
/// is 1.
#[derive(Clone, Copy, Debug, PartialEq, Eq)]
pub struct Found<T> {
    pub value: T,
    pub compared: usize,
}

#[derive(Clone, Debug)]
pub struct AliasMap {
    entries: [Entry; AliasMap::ROOM],
    len: usize,
}

impl Default for AliasMap {
    fn default() -> Self {
        Self::new()
    }
}

impl AliasMap {
    pub const ROOM: usize = 64;

    pub const fn new() -> AliasMap {
        AliasMap { entries: [Entry { alias: Alias(0), id: 0 }; Self::ROOM], len: 0 }
    }

    /// The entries, oldest first.
    #[inline]
    pub fn entries(&self) -> &[Entry] {
        &self.entries[..self.len]
    }

    /// Notes a frame; 9 if it is malformed, 12 if it would be the 65th entry.
    pub fn note(&mut self, frame: &Frame) -> Result<(), Refusal> {
        let frame = frame.checked()?;
        if frame.kind != EXTENDED {
            return Ok(());
        }
        let header = header::split(frame.header);
        match header.kind() {
            Kind::Amd if frame.len == 6 => self.define(header.alias, node_id(&frame)),
            Kind::Amr => {
                self.remove(|entry| entry.alias == header.alias);
                Ok(())
            }
            _ => Ok(()),
        }
    }

    fn define(&mut self, alias: Alias, id: u64) -> Result<(), Refusal> {
        if alias.0 == 0 || id == 0 {
            return Ok(());
        }
        let replaced = |entry: &Entry| entry.alias == alias || entry.id == id;
        if self.len == Self::ROOM && !self.entries().iter().any(replaced) {
            return Err(Refusal::MapFull);
        }
        self.remove(replaced);
        self.entries[self.len] = Entry { alias, id };
        self.len += 1;
        Ok(())
    }

    fn remove(&mut self, gone: impl Fn(&Entry) -> bool) {
        let mut kept = 0;
        for place in 0..self.len {
            let entry = self.entries[place];
            if !gone(&entry) {
                self.entries[kept] = entry;
                kept += 1;
            }
        }
        self.len = kept;
    }

    /// The Node ID of an alias; 13 if absent.
    #[inline]
    pub fn node_id_of(&self, alias: Alias) -> Result<Found<u64>, Refusal> {
        self.look_up(|entry| entry.alias == alias, |entry| entry.id)
    }

    /// The alias of a Node ID; 13 if absent.
    #[inline]
    pub fn alias_of(&self, id: u64) -> Result<Found<Alias>, Refusal> {
        self.look_up(|entry| entry.id == id, |entry| entry.alias)
    }

    /// Compares entries from the oldest on and ends at the first hit.
    fn look_up<T>(
        &self,
        is_hit: impl Fn(&Entry) -> bool,
        value: impl FnOnce(&Entry) -> T,
    ) -> Result<Found<T>, Refusal> {
        let entries = self.entries();
        let older = entries.iter().position(is_hit).ok_or(Refusal::Absent)?;
        Ok(Found { value: value(&entries[older]), compared: older + 1 })
    }
}

/// The first six data bytes as a Node ID.
fn node_id(frame: &Frame) -> u64 {
    u64::from_be_bytes(frame.data) >> 16
}
