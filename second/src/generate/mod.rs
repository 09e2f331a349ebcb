//! Generators: the same seed gives the same cases everywhere.

pub mod datagram;
pub mod framing;
pub mod image;
pub mod recording;
pub mod script;
pub mod selection;
pub mod sheet;
pub mod silence;
pub mod state;
pub mod table;
pub mod tally;
