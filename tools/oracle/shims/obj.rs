//! Stands in for a file that is not at hand: the three fields of an object that the published files name.
//! The driver and the timing hang here, since `lib.rs` is built unchanged and so cannot name them.

use object::SectionIndex;

use crate::{btf::Btf, util::HashMap};

#[path = "driver.rs"]
pub mod driver;

#[path = "timing.rs"]
pub mod timing;

/// An object file.
#[derive(Debug, Default)]
pub struct Object {
    /// Its table.
    pub btf: Option<Btf>,
    pub(crate) section_infos: HashMap<String, (SectionIndex, u64)>,
    pub(crate) symbol_offset_by_name: HashMap<String, u64>,
}
