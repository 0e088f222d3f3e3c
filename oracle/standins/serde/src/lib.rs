//! Stands in for serde: the two derive names, and nothing behind them.
pub use serde_derive::{Deserialize, Serialize};
