//! The library through its safe types: every refusal that they can meet, every notice, a pass cut at every bit, the enable bits in force, the packets
//! still to go, the stuffed zeros of blocks, open messages, totals, long messages, the framing alone, and the serial line.

mod enabling;
mod frames;
mod framing;
mod line;
mod long;
mod notices;
mod open;
mod passes;
mod refusals;
mod totals;
mod waiting;
mod zeros;
