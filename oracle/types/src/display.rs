//! Stand-in for display.rs: text of types and objects in other messages.

use super::objects::{ObjKey, TCObjects, TypeKey};
use go_parser::AstObjects;
use std::fmt;

pub trait Display: fmt::Debug {}

impl Display for ObjKey {}
impl Display for TypeKey {}

pub struct Displayer<'a> {
    inner: &'a dyn Display,
}

impl<'a> Displayer<'a> {
    pub fn new(
        inner: &'a impl Display,
        _: Option<&'a AstObjects>,
        _: Option<&'a TCObjects>,
    ) -> Displayer<'a> {
        Displayer { inner }
    }
}

impl fmt::Display for Displayer<'_> {
    fn fmt(&self, f: &mut fmt::Formatter<'_>) -> fmt::Result {
        self.inner.fmt(f)
    }
}
