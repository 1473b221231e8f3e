//! A second, plain model of the transfer point, written from the scope paper,
//! its settled points and the text formats alone.

pub mod arguments;
pub mod arrangement;
pub mod breakage;
pub mod changeover;
mod circuits;
pub mod compare;
pub mod compare_traces;
pub mod configuration;
pub mod corners;
mod corners_of_endings;
pub mod count;
mod endings;
pub mod fates;
pub mod generate;
mod generate_changeovers;
pub mod ledger;
pub mod naming;
pub mod options;
pub mod places;
pub mod point;
mod promises;
pub mod random;
pub mod reception;
pub mod record;
pub mod replay;
pub mod run;
pub mod sentences;
pub mod service;
pub mod story;
pub mod totals;
pub mod trace;
pub mod transfer;
pub mod wire;
pub mod words;
