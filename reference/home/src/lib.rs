//! The functions of mujou that Twillharbor ports, with layers and with the centre handed in: what
//! the differential runs compare Home with.
//!
//! `README.md` says what differs from the reference with layers, and how to see it.

pub mod join;
pub mod optimize;
pub mod types;
