//! The worst lists for single aliases: a node tests an alias that another uses, and learns of it as
//! late as given limits let it.

use crate::alias::ALIASES;
use crate::generate::draft::Draft;
use crate::generate::scenarios::ID;
use crate::limits::Limits;

/// Node 0 is Permitted, and node 1 has sent its four CIDs for the same alias. They stand in node
/// 0's inbox as long as they may, then a reply waits as long as it may.
fn slow_answer(limits: Limits) -> Draft {
    let mut draft = Draft::permitted(&[ID]);
    draft.power_on(1, ID + ALIASES).send(1).send(1).send(1).send(1);
    draft.ticks(limits.inbox as usize).drain(0).ticks(limits.waiting as usize);
    draft
}

/// Then the reply leaves, and stands in node 1's inbox as long as it may.
pub fn slow_reply(limits: Limits) -> Draft {
    let mut draft = slow_answer(limits);
    draft.send(0).ticks(limits.inbox as usize);
    draft
}

/// Then a release drops the reply, and an AMR waits as long as it may.
pub fn slow_amr(limits: Limits) -> Draft {
    let mut draft = slow_answer(limits);
    draft.release(0).ticks(limits.waiting as usize);
    draft
}
