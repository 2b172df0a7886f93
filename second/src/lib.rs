//! The rules of the tick scheduler, written from the rule page document 01
//! alone: tables, their text, the run, the verdicts, and the programs' line
//! formats; [`report`] is from request No. 1, the fields and the numbers 41 to 45
//! that [`text`] tells are from request No. 2, [`fits`] is from request No. 5,
//! [`frame`] with [`frame_text`] from request No. 6, and the phases of servers from
//! request No. 7.
//!
//! Text holds microseconds; everything else in this library holds ticks. Only
//! [`text`] and [`frame_text`] convert between the two.

pub mod fits;
pub mod frame;
mod frame_states;
pub mod frame_text;
pub mod night;
pub mod number;
pub mod report;
pub mod run;
pub mod states;
pub mod table;
pub mod text;
pub mod verdict;
