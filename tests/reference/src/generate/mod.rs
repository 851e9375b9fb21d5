//! Scripts, lists and texts made from a seed, the coverage they reach, and the stored corpora.

pub mod cases;
pub mod changes;
pub mod contests;
pub mod corpus;
pub mod coverage;
pub mod draft;
pub mod filler;
pub mod grid_faults;
pub mod grid_texts;
pub mod id_marks;
pub mod link_lists;
pub mod link_marks;
pub mod look_ups;
pub mod map_corpus;
pub mod marks;
pub mod prng;
pub mod scenarios;
pub mod slow;
pub mod turn_cells;
pub mod turn_lists;
pub mod twin;
pub mod walker;
pub mod warm_lists;
pub mod warm_marks;
pub mod warm_scripts;
