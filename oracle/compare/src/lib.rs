//! The port's answers beside those of the listed Rust, where it can't be asked and in solving of the second
//! implementation, and of documents 01's and 02's checks, at scale.

mod answer;
mod broken;
mod calls;
mod checks;
mod draw;
mod factor;
mod last_block;
mod left_out;
mod load_order;
mod numbered;
mod numbered_report;
mod port;
mod records;
mod report;
mod roots;
mod run;
mod small;
mod solve;
mod solve_report;

pub use run::compare;
