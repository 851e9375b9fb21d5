//! A node's CAN link: the states that the host tells of it, and the error report that 002, 6.2.7,
//! names for a change.

use crate::refusal::Refusal;

#[derive(Clone, Copy, Debug, PartialEq, Eq, PartialOrd, Ord)]
#[repr(u8)]
pub enum Link {
    ErrorActive = 0,
    ErrorPassive = 1,
    BusOff = 2,
}

impl Link {
    pub const ALL: [Link; 3] = [Link::ErrorActive, Link::ErrorPassive, Link::BusOff];

    /// The link state of a number; 14 above 2.
    pub fn of(number: u8) -> Result<Link, Refusal> {
        match number {
            0 => Ok(Link::ErrorActive),
            1 => Ok(Link::ErrorPassive),
            2 => Ok(Link::BusOff),
            _ => Err(Refusal::BadLinkState),
        }
    }

    pub fn number(self) -> u8 {
        self as u8
    }

    /// The number of the report for the change from this state: none where nothing changes, and
    /// none for entering Bus Off.
    pub fn report(self, next: Link) -> Option<u8> {
        match (self, next) {
            (Link::ErrorActive, Link::ErrorPassive) => Some(0),
            (Link::BusOff, Link::ErrorPassive) => Some(1),
            (Link::ErrorPassive, Link::ErrorActive) => Some(2),
            (Link::BusOff, Link::ErrorActive) => Some(3),
            _ => None,
        }
    }
}
