//! A second build of the modem-relay gateway, written from document 01 and `docs/SCRIPT.md`, not from the library's code.
//!
//! It exists to be held against the proved library: both read the same script and must write the same answers. So it
//! shares nothing with the library, and it takes other means wherever there is a choice. Messages lie in maps under
//! their full numbers and not in places of one store; modes and recovery are enums; fields are read and written bit by
//! bit. Only how many octets of store are lent is kept, because that is all of the store that an answer can show.
//!
//! A newcomer starts with [`gateway::Gateway`], whose methods are the calls, and [`desk::Desk`], which reads scripts.
//! `generate` writes scripts from a seed.

pub mod audit;
pub mod bits;
pub mod breaks;
pub mod channel;
pub mod connect;
pub mod desk;
pub mod flag;
pub mod gateway;
pub mod generate;
pub mod line;
pub mod lines;
pub mod modes;
pub mod owed;
pub mod packet;
pub mod receiving;
pub mod refusal;
pub mod resting;
pub mod sending;
pub mod slip;
pub mod spoil;
pub mod words;
