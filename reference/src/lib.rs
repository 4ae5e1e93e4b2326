//! The independent second program. It is written from the scope documents alone (01 and 02) and shares no code with
//! the proved crates. The two programs are compared: if they agree bit for bit, they agree for different reasons.

pub mod angle;
pub mod board;
pub mod boards;
pub mod compare;
pub mod entrance;
pub mod fixed;
pub mod flights;
pub mod hash;
pub mod kepler;
pub mod landing;
pub mod link;
pub mod links;
pub mod message;
pub mod opm;
pub mod opms;
pub mod places;
pub mod precise;
pub mod precision;
pub mod questions;
pub mod random;
pub mod record;
pub mod root;
pub mod solve;
pub mod solver;
pub mod sweep;
pub mod sweeps;
pub mod time;
pub mod triangle;
pub mod velocity;
pub mod wire;
