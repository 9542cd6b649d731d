//! Document 01 ("Water hammer in pumping mains: the calculator"), with what has landed of document 02,
//! implemented a second time, from the papers alone, to compare the proved calculator with.
//!
//! - [`reader`]: questions 1 to 15, 50 and 53; [`layout`]: pairs, tables and forms; [`job`]: what an accepted job says.
//! - [`root`], [`wave`], [`node`]: the equations, rounded once an operation in the written order.
//! - [`run`]: start and run-on over seven lent slices ([`rows`]); [`listing`]: the lines of the program.
//! - [`valve_setting`]: the coefficient of a chain's valve for a discharge; [`rest`]: how far a run departs from its
//!   initial state.
//! - [`baseline`]: the same run-on written for speed.
//! - [`draft`], [`generate`]: jobs built by a program, sound, odd and damaged ones at random.
//! - [`text`], [`decimals`], [`refusal`]: jobs and listings that people can read.
//! - [`samples`], [`lauria`], [`rundown`]: sample jobs, one of them out of a thesis with its printed heads, one beside
//!   the closed form of a power failure.

pub mod baseline;
pub mod decimals;
pub mod draft;
pub mod fields;
pub mod generate;
pub mod job;
pub mod lauria;
pub mod layout;
pub mod listing;
pub mod node;
pub mod reader;
pub mod refusal;
pub mod rest;
pub mod root;
pub mod rows;
pub mod run;
pub mod rundown;
pub mod samples;
pub mod text;
pub mod valve_setting;
pub mod wave;
