//! goscript's type checker as far as label.rs and returns.rs lean on it, and
//! bodies made ready for it. Compiled twice, as package `stock` and `mended`.
#![allow(unused, mismatched_lifetime_syntaxes)]

// obj, objects, package, scope, typ and universe, as goscript has them.
include!(concat!(env!("OUT_DIR"), "/modules.rs"));

mod answer;
pub mod check;
mod constant;
mod display;
mod importer;
mod operand;
mod prepared;
mod selection;
mod tree;

use importer::SourceRead;
pub use prepared::Prepared;
