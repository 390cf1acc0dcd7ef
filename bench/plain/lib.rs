//! The planner's calls in plain Rust, on slices of words: the baseline for speed and an independent implementation for
//! comparisons. Nothing here is proved.

mod assignment;
mod certificate;
mod checker;
mod clause;
mod conclusions;
mod conversion;
mod distance;
mod domains;
mod encoding;
mod entries;
mod hunt;
mod input;
mod limits;
mod making;
mod readout;
mod refusal;
mod resolution;
mod row;
mod stepping;
mod table;
pub mod words;

pub use assignment::{complete, plan};
pub use certificate::{certify, verify, Certified, Verified};
pub use checker::{check, Checked};
pub use conversion::{to_five, to_six};
pub use encoding::encode;
pub use entries::cost;
pub use making::make_instance;
pub use readout::readout;
pub use refusal::Refusal;
pub use stepping::{run, step, Outcome, Ran, Stepped};
