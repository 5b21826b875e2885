//! The checker: check, decl, label, returns and util, as goscript has them
//! (label and returns edited in the mended build), beside stand-ins.

include!(concat!(env!("OUT_DIR"), "/check_modules.rs"));

mod interface;
mod resolver;
mod rest;
mod stmt;

pub use resolver::DeclInfo;
