//! Stand-in for selection.rs: selector expressions.

use super::objects::ObjKey;

#[derive(Debug)]
pub struct Selection {
    obj: ObjKey,
}

impl Selection {
    pub fn obj(&self) -> ObjKey {
        self.obj
    }
}
