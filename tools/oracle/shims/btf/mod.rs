//! Stands in for a file that is not at hand: names the modules of BTF.

mod btf;
pub(crate) mod info;
pub(crate) mod relocation;
mod types;

pub use btf::*;
pub use info::{FuncInfo, LineInfo};
pub use types::*;
