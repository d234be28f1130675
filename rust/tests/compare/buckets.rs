//! Buckets in lent memory, against the second program: request 05 of document 02,
//! "Keep nodes over the whole key space".
//!
//! Each call is made by the library and by the second program, each with a memory of
//! its own. Both must answer the same, and leave the same in every byte of the memory
//! and of the output, and around them.

mod both;
mod courses;
pub mod damage;
mod damaged;
mod full;
mod layout;
mod lengths;
pub mod made;
mod unlisted;
