//! Stands in for a file that is not at hand. Nothing here is run: the script never reads `.BTF.ext`.

use object::Endianness;

use crate::util::HashMap;

/// Functions by section.
#[derive(Clone, Debug, Default)]
pub struct FuncInfo {
    pub(crate) data: HashMap<String, FuncSecInfo>,
}

impl FuncInfo {
    pub(crate) fn new() -> Self {
        Self::default()
    }
}

/// Lines by section.
#[derive(Clone, Debug, Default)]
pub struct LineInfo {
    pub(crate) data: HashMap<String, LineSecInfo>,
}

impl LineInfo {
    pub(crate) fn new() -> Self {
        Self::default()
    }
}

/// Functions of one section.
#[derive(Clone, Debug)]
pub struct FuncSecInfo;

impl FuncSecInfo {
    pub(crate) fn parse(_: u32, _: u32, _: usize, _: &[u8], _: Endianness) -> Self {
        Self
    }
}

/// Lines of one section.
#[derive(Clone, Debug)]
pub struct LineSecInfo;

impl LineSecInfo {
    pub(crate) fn parse(_: u32, _: u32, _: usize, _: &[u8], _: Endianness) -> Self {
        Self
    }
}
