//! goscript's parser crate as far as label.rs and returns.rs lean on it.
#![allow(unused, mismatched_lifetime_syntaxes, noop_method_call)]

include!(concat!(env!("OUT_DIR"), "/modules.rs"));

/// Stand-in for scope.rs, which resolves identifiers while parsing.
pub mod scope {
    pub struct Entity;
    pub struct Scope;
}

pub use errors::{ErrorList, FilePosErrors};
pub use map::{Map, MapIter};
pub use objects::*;
pub use position::{File, FilePos, FileSet, Pos};
pub use token::Token;
