//! Stands in for a file that is not at hand: the bindings, and two structs that they lack.

mod linux_bindings_armv7;

pub use linux_bindings_armv7::*;

#[repr(C)]
#[derive(Clone, Copy, Debug)]
pub struct btf_ext_header {
    pub magic: __u16,
    pub version: __u8,
    pub flags: __u8,
    pub hdr_len: __u32,
    pub func_info_off: __u32,
    pub func_info_len: __u32,
    pub line_info_off: __u32,
    pub line_info_len: __u32,
    pub core_relo_off: __u32,
    pub core_relo_len: __u32,
}

#[repr(C)]
#[derive(Clone, Copy, Debug)]
pub struct bpf_core_relo {
    pub insn_off: __u32,
    pub type_id: __u32,
    pub access_str_off: __u32,
    pub kind: __u32,
}
