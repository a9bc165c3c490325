//! Times the crate on the tables that crates/bench times: the same declarations, the same names, and so the same bytes.

use std::{
    hint::black_box,
    time::{Duration, Instant},
};

use object::Endianness;

use crate::btf::{
    Btf, BtfEnum, BtfKind, BtfMember, BtfParam, BtfType, Const, Enum, Func, FuncLinkage, FuncProto, Int, IntEncoding, Ptr,
    Struct, Typedef, Var, VarLinkage,
};

const TENS: usize = 16;

/// The times of one size, in seconds.
#[derive(Debug)]
pub struct Measured {
    /// How many declarations.
    pub size: usize,
    /// How many bytes the file has.
    pub bytes: usize,
    /// Building, encoding, searching the last name, and a walk of 31 links.
    pub times: [f64; 4],
    /// Of the file, as crates/bench makes it.
    pub checksum: u64,
}

fn array(name: u32, element: u32, index: u32, length: u32) -> BtfType {
    let words = [name, (BtfKind::Array as u32) << 24, 0, element, index, length];
    let bytes: Vec<u8> = words.iter().flat_map(|word| word.to_ne_bytes()).collect();
    // Safety: the words are a whole Array.
    unsafe { BtfType::read(&bytes, Endianness::default()) }.expect("the words are a whole Array")
}

/// Ten declarations repeat, as in crates/bench/src/filling.rt.
fn fill(labels: &[String]) -> Btf {
    let mut btf = Btf::new();
    let (mut int, mut record, mut alias, mut constant, mut proto) = (0, 0, 0, 0, 0);
    for (i, label) in labels.iter().enumerate() {
        if i % (10 * TENS) == 3 {
            constant = int;
        }
        let name = btf.add_string(label);
        match i % 10 {
            0 => int = btf.add_type(BtfType::Int(Int::new(name, 4, IntEncoding::None, 0))),
            1 => {
                btf.add_type(BtfType::Ptr(Ptr::new(name, record)));
            }
            2 => {
                let member = |offset| BtfMember { name_offset: name, btf_type: int, offset };
                let members = vec![member(0), member(32), member(64)];
                record = btf.add_type(BtfType::Struct(Struct::new(name, members, 12)));
            }
            3 => alias = btf.add_type(BtfType::Typedef(Typedef::new(name, constant))),
            4 => constant = btf.add_type(BtfType::Const(Const::new(alias))),
            5 => {
                let values = vec![BtfEnum::new(name, 0), BtfEnum::new(name, 1)];
                btf.add_type(BtfType::Enum(Enum::new(name, false, values)));
            }
            6 => {
                btf.add_type(array(name, record, int, 8));
            }
            7 => {
                let param = |btf_type| BtfParam { name_offset: name, btf_type };
                proto = btf.add_type(BtfType::FuncProto(FuncProto::new(vec![param(int), param(record)], int)));
            }
            8 => {
                btf.add_type(BtfType::Func(Func::new(name, proto, FuncLinkage::Global)));
            }
            _ => {
                btf.add_type(BtfType::Var(Var::new(name, record, VarLinkage::Global)));
            }
        }
    }
    btf
}

/// The least time of a work, over many; what a work gives is let go outside of its time.
fn best<T>(rounds: usize, works: usize, mut work: impl FnMut() -> T) -> f64 {
    let mut best = f64::INFINITY;
    for _ in 0..rounds {
        let mut spent = Duration::ZERO;
        for _ in 0..works {
            let start = Instant::now();
            let given = black_box(work());
            spent += start.elapsed();
            drop(given);
        }
        best = best.min(spent.as_secs_f64() / works as f64);
    }
    best
}

/// Measures tables of a size, a whole number of tens.
pub fn measure(size: usize) -> Measured {
    let labels: Vec<String> = (0..size).map(|number| format!("n{number:011}")).collect();
    let last = labels.last().expect("there is a name");
    let rounds = (20_000_000 / size).clamp(10, 500);
    let works = (100_000 / size).clamp(1, 1000);
    let build = best(rounds, works, || fill(&labels));
    let btf = fill(&labels);
    let encode = best(rounds, works, || btf.to_bytes());
    let search = best(rounds, works, || btf.id_by_type_name_kind(black_box(last), BtfKind::Var).expect("it is there"));
    let chains = size / (10 * TENS);
    let walk_all = best(20, 1, || {
        for number in 0..100_000 {
            let head = (number % chains * TENS + TENS - 1) * 10 + 4;
            black_box(btf.resolve_type(black_box(head as u32)).expect("it ends"));
        }
    });
    let bytes = btf.to_bytes();
    let mut checksum = 0u64;
    for byte in &bytes {
        checksum = checksum.wrapping_mul(31).wrapping_add(u64::from(*byte));
    }
    Measured { size, bytes: bytes.len(), times: [build, encode, search, walk_all / 100_000.0], checksum }
}
