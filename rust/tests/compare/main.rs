//! Compares the library with the reference program on generated inputs.
//!
//! There is one test for each area. Each says on standard output how many
//! inputs it ran and how often each refusal was met, and fails when a refusal
//! was met too seldom to say anything.

mod buckets;
mod frames;
mod generator;
mod keys;
mod memory;
mod nearest;
mod nodes;
mod outcome;
mod output;
mod own_key;
mod owned_buckets;
mod owned_frames;
mod owned_lists;
mod owned_plays;
mod owned_rooms;
mod packets;
mod ping_times;
mod readers;
mod reconnects;
mod relay;
mod runs;
mod sitting;
mod table;
mod tally;
mod ticks;
mod writers;
