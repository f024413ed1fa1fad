//! A second implementation, written from the requirement and not from the Rattle code.
//!
//! It favours the plainest way of saying a rule over speed: tables of limits, whole-number arithmetic, nothing shared
//! with the library under test.

pub mod aedat;
pub mod dat;
pub mod evt2;
pub mod evt3;
pub mod header;
pub mod raw;
pub mod rows;
pub mod words;
