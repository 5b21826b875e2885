//! Bodies to try, and ways to spoil and to shrink them.

mod damage;
mod defaults;
mod every;
mod fallthroughs;
mod limits;
mod names;
mod people;
mod random;
mod rng;
pub mod rows;
mod smallest;
mod table;

pub use damage::damage;
pub use defaults::{defaults, two_defaults};
pub use every::every;
pub use fallthroughs::fallthroughs;
pub use limits::at_limits;
pub use names::with_any_bytes;
pub use people::people;
pub use random::{random, Shape};
pub use rng::Rng;
pub use smallest::{smallest, smallest_tree};
pub use table::{example, table};

use crate::kind;

/// The statements that hold clauses, and the clauses that they hold.
const STATEMENTS: [[u32; 2]; 3] =
    [[kind::SWITCH, kind::CASE], [kind::TYPE_SWITCH, kind::CASE], [kind::SELECT, kind::COMM]];
