//! The functions of mujou at commit 8cf2e3ae71 that Twillharbor ports, with
//! their bodies unchanged: what the differential runs compare with.
//!
//! `README.md` says what was cut away and how to compare with the source.

pub mod join;
pub mod optimize;
pub mod types;
