//! The link order: the host tells a node the state of its CAN link.

/// The link states in the order of their numbers: as a script has them, and as the standard calls them.
pub const STATES: [(&str, &str); 3] =
    [("active", "Error Active"), ("passive", "Error Passive"), ("off", "Bus Off")];

/// The state may be any byte.
#[derive(Clone, Copy, Debug, PartialEq, Eq)]
pub struct Link {
    pub index: u8,
    pub state: u8,
}

impl Link {
    /// The link state that a script calls by this word.
    pub fn state_of(word: &str) -> Option<u8> {
        let known = STATES.iter().position(|(name, _)| word.eq_ignore_ascii_case(name));
        known.map(|state| state as u8)
    }

    /// The state as a script has it: a name, or a number that has none.
    pub fn state_word(&self) -> String {
        self.known().map_or(self.state.to_string(), |(word, _)| word.into())
    }

    /// The state as the standard calls it, or a number that it does not know.
    pub fn state_name(&self) -> String {
        self.known().map_or(self.state.to_string(), |(_, name)| name.into())
    }

    fn known(&self) -> Option<(&'static str, &'static str)> {
        STATES.get(usize::from(self.state)).copied()
    }
}
