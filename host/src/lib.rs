//! What the tool `lcc` is made of. It has no behaviour of its own: every answer and every state comes from the proved library; ages
//! are counted from these.

pub mod actions;
pub mod ages;
pub mod beside;
pub mod bit_28;
pub mod card;
pub mod command;
pub mod expand;
pub mod explain;
pub mod foreign;
pub mod frame;
pub mod gridconnect;
pub mod hex;
pub mod in_use;
pub mod link;
pub mod listing;
pub mod names;
pub mod operands;
pub mod paint;
pub mod picture;
pub mod play;
pub mod progress;
pub mod save;
pub mod script;
pub mod shared;
pub mod spell;
pub mod summary;
pub mod ticks;
pub mod told;
pub mod turn;
pub mod usage;
pub mod warm;
pub mod watch;
pub mod words;
