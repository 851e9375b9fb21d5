//! Another implementation of document 01, with requests A.1 to A.9 of document 02, without proofs: the
//! peer for tests and for speed.

pub mod alias;
pub mod command;
pub mod frame;
pub mod gridconnect;
pub mod header;
pub mod inbox;
pub mod limits;
pub mod link;
pub mod map;
pub mod node;
pub mod refusal;
pub mod script;
pub mod segment;
pub mod turns;
pub mod warm;
pub mod watch;

pub mod generate;

pub use alias::{first_alias, next_alias, Alias};
pub use command::{whole_commands, Answer, Command, Given};
pub use frame::Frame;
pub use limits::Limits;
pub use link::Link;
pub use map::{AliasMap, Found};
pub use node::{Node, State};
pub use refusal::Refusal;
pub use script::{run, run_program};
pub use segment::{claim_holds, node_ids_differ, Segment, View};
pub use turns::Turns;
pub use warm::{ReadOut, Start};
pub use watch::Watch;
