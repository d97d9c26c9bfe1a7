//! A plain board in ordinary Rust, written from the paper: the second opinion on the proved one.
#![allow(unexpected_cfgs)] // the planted slips: see README.md

pub mod arc;
pub mod batched;
mod batched_arc;
pub mod board;
pub mod by_value;
pub mod chain;
pub mod check;
mod direct;
pub mod join;
pub mod line;
pub mod lister;
pub mod motion;
pub mod number;
pub mod receive;
pub mod record;
pub mod run;
pub mod sheet;
pub mod table;
