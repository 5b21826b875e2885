//! Stand-in for constant.rs, which leans on crates for large numbers. Labels
//! and verdicts use no constant; universe.rs makes three.

#[derive(Clone, Debug, PartialEq)]
pub enum Value {
    Unknown,
    Bool(bool),
    Int(i64),
}

impl Value {
    pub fn with_bool(b: bool) -> Value {
        Value::Bool(b)
    }

    pub fn with_i64(i: i64) -> Value {
        Value::Int(i)
    }
}
