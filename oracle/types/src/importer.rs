//! Stand-in for importer.rs: a body imports nothing.

use super::check::check::TypeInfo;
use super::objects::{PackageKey, TCObjects};
use go_parser::{AstObjects, ErrorList, FileSet, Map, Pos};
use std::marker::PhantomData;

pub trait SourceRead {}

#[derive(PartialEq, Eq, PartialOrd, Ord)]
pub struct ImportKey;

#[derive(Default)]
pub struct TraceConfig {
    pub trace_checker: bool,
}

pub struct Importer<'a, S: SourceRead>(PhantomData<&'a S>);

impl<'a, S: SourceRead> Importer<'a, S> {
    pub fn new(
        _: &'a TraceConfig,
        _: &'a S,
        _: &'a mut FileSet,
        _: &'a mut Map<String, PackageKey>,
        _: &'a mut Map<PackageKey, TypeInfo>,
        _: &'a mut AstObjects,
        _: &'a mut TCObjects,
        _: &'a ErrorList,
        _: Pos,
    ) -> Importer<'a, S> {
        unreachable!()
    }
}
