//! The trials: each makes calls of one kind with values that follow from a seed.

pub mod cuts;
pub mod enabling;
pub mod framings;
pub mod left;
pub mod lengths;
pub mod lines;
pub mod listing;
pub mod long;
pub mod long_slots;
pub mod packets;
pub mod passes;
pub mod reading;
pub mod records;
pub mod sending;
pub mod totals;
pub mod zeros;
