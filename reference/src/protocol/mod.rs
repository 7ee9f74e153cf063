//! The protocol: readings, coins, one node's closing, whole runs.

mod closing;
mod coin;
mod reading;
mod refusal;
mod run;

pub use closing::*;
pub use coin::*;
pub use reading::*;
pub use refusal::*;
pub use run::*;
