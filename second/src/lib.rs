//! One end of a link, written from document 01 ("What is wanted and its
//! exact rules"), and the script format that drives two of them.

pub mod check;
pub mod end;
pub mod flit;
pub mod receive;
pub mod script;
pub mod send;
pub mod state;
pub mod ticket;
