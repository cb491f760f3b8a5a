//! The functions of mujou that Twillharbor ports, with contours that have layers: what the
//! differential runs compare with.
//!
//! `README.md` says what differs from the reference, and how to see it.

pub mod join;
pub mod optimize;
pub mod types;
