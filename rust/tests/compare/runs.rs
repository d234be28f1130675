//! Runs of stored calls, against the second program.
//!
//! A run is played by the library on lent memory, in one call, and by the
//! second program on its room. Both must stop on the same ground with the same
//! three counts. Every byte of the output must be the second program's, or as
//! it was; and the memory must hold the second program's room.
//!
//! A history knows besides, from its calls one by one, where a run of it must
//! stop and what it must write.

mod allowances;
mod between_ticks;
mod both;
mod counts;
mod course;
mod cuts;
mod damaged_calls;
mod early;
mod every_form;
mod going_on;
mod history;
mod lengths;
mod lent;
mod not_whole;
mod one_by_one;
mod order;
mod outputs;
