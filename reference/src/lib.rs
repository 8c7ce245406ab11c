//! The outstation of document 01, written a second time, for comparison only.
//!
//! One module for each layer of 01: `crc`, `frame` and `link` are "Bytes on the line", with
//! `receiver` for bytes off the wire (02, 101) and `transport` for segments; `points` and `events`
//! are "Readings"; `application` and `control` are "What the control room is told", with
//! `set_points` for analog outputs (02, 109); `outstation` is the setup and the state; `script` is
//! the text interface; `generate` writes random scripts. `faults` makes the program wrong on
//! purpose, in one named way at a time. Where 01 leaves room, the reading taken is cited as R and
//! its number (R3.9); where a request of 02 does, by the request's number (109.2).

pub mod application;
pub mod control;
pub mod crc;
pub mod events;
pub mod faults;
pub mod frame;
pub mod generate;
pub mod link;
pub mod outstation;
pub mod points;
pub mod receiver;
pub mod script;
pub mod set_points;
pub mod transport;

/// A refusal, by its number in 01's table "When the outstation says no".
pub type Refusal = u8;
