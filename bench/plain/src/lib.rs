//! The commands of sdjwt in plain Rust, as functions.
pub mod code;
pub mod commands;
pub mod end;
pub mod files;
pub mod form;
pub mod issue;
pub mod json;
pub mod open;
pub mod present;
pub mod verify;
