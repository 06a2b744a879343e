//! The requester's rules a second time, over plain lists of packets and without links,
//! so that another engine's answers can be compared with these.

pub mod answer;
pub mod audit;
pub mod call;
pub mod card;
pub mod emission;
pub mod events;
pub mod limits;
pub mod message;
pub mod opcode;
pub mod pair;
pub mod psn;
pub mod random;
pub mod release;
pub mod timer;
pub mod trace;
pub mod wire;
pub mod words;
