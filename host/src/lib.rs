//! The static library (`ffi`) and the program `plan` (`program`), and programs that share no code
//! with them to compare them with: a max-flow for the yes and no, the rule of the plan, the order of
//! the refusals, a desk, and a reader and printer of job files.

pub mod call;
pub mod damage;
pub mod desk;
pub mod fence;
pub mod ffi;
pub mod files;
pub mod flow;
pub mod histories;
pub mod jobfile;
pub mod ladder;
pub mod ledger;
pub mod lists;
pub mod model;
pub mod printed;
pub mod program;
pub mod random;
pub mod record;
pub mod records;
pub mod rule;
