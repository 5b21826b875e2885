//! Stand-in for interface.rs: method sets of interfaces.

#[derive(Debug)]
pub struct IfaceInfo;
