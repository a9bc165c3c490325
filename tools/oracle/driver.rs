//! Runs a script of calls on the crate's table and prints one answer a line. README.md beside this file has the
//! grammar and the printed words.

use std::{
    fmt::Write as _,
    io::{BufRead, Write},
    panic::{AssertUnwindSafe, catch_unwind},
    str::SplitAsciiWhitespace,
};

use object::{Endianness, SectionIndex};

use crate::{
    btf::{
        Btf, BtfEnum, BtfEnum64, BtfError, BtfFeature, BtfKind, BtfMember, BtfParam, BtfType, Const, DataSec,
        DataSecEntry, DeclTag, Enum, Enum64, Float, Func, FuncLinkage, FuncProto, Int, IntEncoding, Ptr, Struct,
        TypeTag, Typedef, Union, Var, VarLinkage,
    },
    util::HashMap,
};

/// Why a script was given up: the line, from 1, and what is wrong with it.
#[derive(Debug)]
pub struct BadScript {
    /// The line, from 1.
    pub line: usize,
    /// What is wrong with it.
    pub what: String,
}

/// The table that the script speaks of.
enum Table {
    /// No `new` yet.
    None,
    /// A table of the crate.
    Held(Btf),
    /// A rewriting failed, and the crate has thrown the declarations away.
    Lost,
}

/// What one command gives.
enum Answer {
    /// Accepted, with what the crate answered.
    Accepted(String),
    /// Refused by an error of the crate.
    Refused(BtfError),
    /// The crate's vector has no such element; the crate has no error for that.
    NoElement,
    /// The crate has no such call.
    Unsupported,
}

impl From<Result<String, BtfError>> for Answer {
    fn from(result: Result<String, BtfError>) -> Self {
        match result {
            Ok(words) => Self::Accepted(words),
            Err(error) => Self::Refused(error),
        }
    }
}

impl std::fmt::Display for Answer {
    fn fmt(&self, f: &mut std::fmt::Formatter<'_>) -> std::fmt::Result {
        match self {
            Self::Accepted(words) if words.is_empty() => f.write_str("ok"),
            Self::Accepted(words) => write!(f, "ok {words}"),
            Self::Refused(error) => f.write_str(&refusal(error)),
            Self::NoElement => f.write_str("refused 18"),
            Self::Unsupported => f.write_str("unsupported"),
        }
    }
}

/// The number of a refusal, and the value that the crate gives with it.
fn refusal(error: &BtfError) -> String {
    match error {
        BtfError::InvalidTypeKind { kind } => format!("refused 2 {kind}"),
        BtfError::InvalidStringOffset { offset } => format!("refused 6 {offset}"),
        BtfError::UnknownBtfType { type_id } => format!("refused 7 {type_id}"),
        BtfError::UnexpectedBtfType { type_id } => format!("refused 8 {type_id}"),
        BtfError::InvalidTypeInfo => "refused 9".to_owned(),
        BtfError::MaximumTypeDepthReached { type_id } => format!("refused 10 {type_id}"),
        BtfError::UnknownBtfTypeName { type_name } => format!("refused 11 {}", shown(type_name)),
        BtfError::UnknownSectionSize { section_name } => format!("refused 12 {}", shown(section_name)),
        BtfError::InvalidDatasec => "refused 13".to_owned(),
        BtfError::SymbolOffsetNotFound { symbol_name } => format!("refused 14 {}", shown(symbol_name)),
        other => format!("refused unnumbered {other:?}"),
    }
}

/// A name as the script writes it.
fn shown(name: &str) -> String {
    let mut text = String::from("=");
    for byte in name.bytes() {
        if byte.is_ascii_alphanumeric() || b"_./-".contains(&byte) {
            text.push(byte as char);
        } else {
            let _ = write!(text, "%{byte:02X}");
        }
    }
    text
}

/// The words of a line, read one after another.
struct Words<'a>(SplitAsciiWhitespace<'a>);

impl<'a> Words<'a> {
    fn next(&mut self, what: &str) -> Result<&'a str, String> {
        self.0.next().ok_or_else(|| format!("{what} is missing"))
    }

    fn number(&mut self, what: &str) -> Result<u64, String> {
        let word = self.next(what)?;
        let number = match word.strip_prefix("0x") {
            Some(digits) if digits.bytes().all(|b| b.is_ascii_hexdigit()) => u64::from_str_radix(digits, 16).ok(),
            None if word.bytes().all(|b| b.is_ascii_digit()) => word.parse().ok(),
            _ => None,
        };
        number.ok_or_else(|| format!("{what} is not a number below 2^64: {word}"))
    }

    fn word(&mut self, what: &str) -> Result<u32, String> {
        let number = self.number(what)?;
        u32::try_from(number).map_err(|_| format!("{what} does not fit into 32 bits: {number}"))
    }

    fn count(&mut self, what: &str) -> Result<usize, String> {
        self.word(what).map(|n| n as usize)
    }

    fn flag(&mut self) -> Result<bool, String> {
        match self.word("the flag")? {
            0 => Ok(false),
            1 => Ok(true),
            other => Err(format!("the flag is neither 0 nor 1: {other}")),
        }
    }

    fn component(&mut self) -> Result<i32, String> {
        let mut ahead = self.0.clone();
        match ahead.next().and_then(|word| word.strip_prefix('-')) {
            Some(_) => self
                .next("the component")?
                .parse()
                .map_err(|_| "the component is not a signed 32-bit number".to_owned()),
            None => self.word("the component").map(|n| n as i32),
        }
    }

    fn name(&mut self) -> Result<String, String> {
        let word = self.next("a name")?;
        let text = word.strip_prefix('=').ok_or_else(|| format!("a name begins with =: {word}"))?;
        let mut bytes = Vec::new();
        let mut rest = text.bytes();
        while let Some(byte) = rest.next() {
            if byte == b'%' {
                let digit = |b: Option<u8>| b.and_then(|b| (b as char).to_digit(16));
                let (Some(high), Some(low)) = (digit(rest.next()), digit(rest.next())) else {
                    return Err(format!("% wants two hexadecimal digits: {word}"));
                };
                bytes.push((high * 16 + low) as u8);
            } else if byte.is_ascii_alphanumeric() || b"_./-".contains(&byte) {
                bytes.push(byte);
            } else {
                return Err(format!("a byte of a name that wants to be written as %HH: {word}"));
            }
        }
        String::from_utf8(bytes).map_err(|_| format!("the crate takes UTF-8 names only: {word}"))
    }

    fn items<T>(&mut self, what: &str, item: impl Fn(&mut Self) -> Result<T, String>) -> Result<Vec<T>, String> {
        let count = self.count(what)?;
        (0..count).map(|_| item(self)).collect()
    }

    fn end(&mut self) -> Result<(), String> {
        match self.0.next() {
            None => Ok(()),
            Some(word) => Err(format!("too many words, from {word} on")),
        }
    }
}

/// A declaration as the script gives it.
enum Declaration {
    /// A constructor of the crate, run when the command is.
    Made(Box<dyn FnOnce() -> BtfType>),
    /// Words for `BtfType::read`, where no constructor of the crate can say this.
    Read(Vec<u32>),
}

impl Declaration {
    fn made(make: impl FnOnce() -> BtfType + 'static) -> Self {
        Self::Made(Box::new(make))
    }

    fn into_type(self) -> Result<BtfType, BtfError> {
        match self {
            Self::Made(make) => Ok(make()),
            Self::Read(words) => {
                let bytes: Vec<u8> = words.iter().flat_map(|w| w.to_ne_bytes()).collect();
                // Safety: the driver's words are whole declarations of the kind that they name.
                unsafe { BtfType::read(&bytes, Endianness::default()) }
            }
        }
    }
}

fn info(kind: BtfKind, flag: bool, count: usize) -> u32 {
    ((kind as u32) << 24) | (u32::from(flag) << 31) | (count as u32 & 0xFFFF)
}

fn declaration(words: &mut Words<'_>) -> Result<Declaration, String> {
    let kind = words.next("the kind")?;
    let name = words.word("the name offset")?;
    Ok(match kind {
        "int" => {
            let (size, encoding, offset) = (words.word("the size")?, words.word("the encoding")?, words.word("the offset")?);
            Declaration::made(move || BtfType::Int(Int::new(name, size, IntEncoding::from(encoding), offset)))
        }
        "ptr" => {
            let id = words.word("the id")?;
            Declaration::made(move || BtfType::Ptr(Ptr::new(name, id)))
        }
        "typedef" => {
            let id = words.word("the id")?;
            Declaration::made(move || BtfType::Typedef(Typedef::new(name, id)))
        }
        "typetag" => {
            let id = words.word("the id")?;
            Declaration::made(move || BtfType::TypeTag(TypeTag::new(name, id)))
        }
        "const" => {
            let id = words.word("the id")?;
            if name == 0 {
                Declaration::made(move || BtfType::Const(Const::new(id)))
            } else {
                Declaration::Read(vec![name, info(BtfKind::Const, false, 0), id])
            }
        }
        "volatile" => Declaration::Read(vec![name, info(BtfKind::Volatile, false, 0), words.word("the id")?]),
        "restrict" => Declaration::Read(vec![name, info(BtfKind::Restrict, false, 0), words.word("the id")?]),
        "array" => {
            let (element, index, length) = (words.word("the element id")?, words.word("the index id")?, words.word("the length")?);
            Declaration::Read(vec![name, info(BtfKind::Array, false, 0), 0, element, index, length])
        }
        "struct" | "union" => composite(kind == "struct", name, words)?,
        "enum" => {
            let (flag, size) = (words.flag()?, words.word("the size")?);
            let items = words.items("how many values", |w| Ok((w.word("a name offset")?, w.word("a value")?)))?;
            if size == 4 {
                let variants = items.into_iter().map(|(n, v)| BtfEnum::new(n, v)).collect();
                Declaration::made(move || BtfType::Enum(Enum::new(name, flag, variants)))
            } else {
                let mut all = vec![name, info(BtfKind::Enum, flag, items.len()), size];
                all.extend(items.into_iter().flat_map(|(n, v)| [n, v]));
                Declaration::Read(all)
            }
        }
        "enum64" => {
            let (flag, size) = (words.flag()?, words.word("the size")?);
            let items = words.items("how many values", |w| {
                Ok((w.word("a name offset")?, w.word("a low word")?, w.word("a high word")?))
            })?;
            if size == 8 {
                let variants = items
                    .into_iter()
                    .map(|(n, low, high)| BtfEnum64::new(n, u64::from(high) << 32 | u64::from(low)))
                    .collect();
                Declaration::made(move || BtfType::Enum64(Enum64::new(name, flag, variants)))
            } else {
                let mut all = vec![name, info(BtfKind::Enum64, flag, items.len()), size];
                all.extend(items.into_iter().flat_map(|(n, low, high)| [n, low, high]));
                Declaration::Read(all)
            }
        }
        "fwd" => Declaration::Read(vec![name, info(BtfKind::Fwd, words.flag()?, 0), 0]),
        "func" => {
            let (id, linkage) = (words.word("the id")?, words.word("the linkage")?);
            Declaration::made(move || BtfType::Func(Func::new(name, id, FuncLinkage::from(linkage))))
        }
        "var" => {
            let (id, linkage) = (words.word("the id")?, words.word("the linkage")?);
            Declaration::made(move || BtfType::Var(Var::new(name, id, VarLinkage::from(linkage))))
        }
        "funcproto" => {
            let returns = words.word("the id returned")?;
            let items = words.items("how many parameters", |w| Ok((w.word("a name offset")?, w.word("an id")?)))?;
            if name == 0 {
                let params = items
                    .into_iter()
                    .map(|(name_offset, btf_type)| BtfParam { name_offset, btf_type })
                    .collect();
                Declaration::made(move || BtfType::FuncProto(FuncProto::new(params, returns)))
            } else {
                let mut all = vec![name, info(BtfKind::FuncProto, false, items.len()), returns];
                all.extend(items.into_iter().flat_map(|(n, id)| [n, id]));
                Declaration::Read(all)
            }
        }
        "datasec" => {
            let size = words.word("the size")?;
            let entries = words.items("how many entries", |w| {
                let (btf_type, offset, size) = (w.word("an id")?, w.word("an offset")?, w.word("a size")?);
                Ok(DataSecEntry { btf_type, offset, size })
            })?;
            Declaration::made(move || BtfType::DataSec(DataSec::new(name, entries, size)))
        }
        "float" => {
            let size = words.word("the size")?;
            Declaration::made(move || BtfType::Float(Float::new(name, size)))
        }
        "decltag" => {
            let (id, component) = (words.word("the id")?, words.component()?);
            Declaration::made(move || BtfType::DeclTag(DeclTag::new(name, id, component)))
        }
        other => return Err(format!("no such kind: {other}")),
    })
}

fn composite(is_struct: bool, name: u32, words: &mut Words<'_>) -> Result<Declaration, String> {
    let (flag, size) = (words.flag()?, words.word("the size")?);
    let members = words.items("how many members", |w| {
        let (name_offset, btf_type, offset) = (w.word("a name offset")?, w.word("an id")?, w.word("an offset")?);
        Ok(BtfMember { name_offset, btf_type, offset })
    })?;
    Ok(match (flag, is_struct) {
        (false, true) => Declaration::made(move || BtfType::Struct(Struct::new(name, members, size))),
        (false, false) => Declaration::made(move || BtfType::Union(Union::new(name, size, members, None))),
        (true, _) => {
            let kind = if is_struct { BtfKind::Struct } else { BtfKind::Union };
            let mut all = vec![name, info(kind, true, members.len()), size];
            all.extend(members.into_iter().flat_map(|m| [m.name_offset, m.btf_type, m.offset]));
            Declaration::Read(all)
        }
    })
}

/// A command, read whole before it is run.
enum Command {
    New,
    Str(String),
    Type(Declaration),
    String(u32),
    Name(u32),
    Get(u32),
    Element(u32, u32),
    Resolve(u32),
    Size(u32, u32),
    Find(u32, String),
    Fix([bool; 8], HashMap<String, (SectionIndex, u64)>, HashMap<String, u64>),
    Bytes(bool),
}

fn command(line: &str) -> Result<Command, String> {
    let mut words = Words(line.split_ascii_whitespace());
    let first = words.next("the command")?;
    let command = match first {
        "new" => Command::New,
        "str" => Command::Str(words.name()?),
        "type" => Command::Type(declaration(&mut words)?),
        "string" => Command::String(words.word("the offset")?),
        "name" => Command::Name(words.word("the id")?),
        "get" => Command::Get(words.word("the id")?),
        "element" => Command::Element(words.word("the id")?, words.word("the element")?),
        "resolve" => Command::Resolve(words.word("the id")?),
        "size" => Command::Size(words.word("the id")?, width(&mut words)?),
        "find" => Command::Find(words.word("the kind")?, words.name()?),
        "fix" => fix(&mut words)?,
        "bytes" => Command::Bytes(match words.next("the byte order")? {
            "little" => false,
            "big" => true,
            other => return Err(format!("the byte order is neither little nor big: {other}")),
        }),
        other => return Err(format!("no such command: {other}")),
    };
    words.end()?;
    Ok(command)
}

fn width(words: &mut Words<'_>) -> Result<u32, String> {
    match words.word("the width")? {
        width @ (4 | 8) => Ok(width),
        other => Err(format!("the width is neither 4 nor 8: {other}")),
    }
}

fn fix(words: &mut Words<'_>) -> Result<Command, String> {
    let mask = words.next("the mask")?.as_bytes();
    if mask.len() != 8 || mask.iter().any(|b| !b"01".contains(b)) {
        return Err("the mask has eight digits, each 0 or 1".to_owned());
    }
    let mut granted = [false; 8];
    for (place, digit) in granted.iter_mut().zip(mask) {
        *place = *digit == b'1';
    }
    let row = |w: &mut Words<'_>| Ok((w.name()?, w.number("a number of a row")?));
    let sections = words.items("how many sections", row)?;
    let symbols = words.items("how many symbols", row)?;
    // The first row of a name counts. The crate is given a map, in which a name stands once.
    let mut section_infos = HashMap::new();
    for (name, size) in sections {
        section_infos.entry(name).or_insert((SectionIndex(0), size));
    }
    let mut symbol_offsets = HashMap::new();
    for (name, offset) in symbols {
        symbol_offsets.entry(name).or_insert(offset);
    }
    Ok(Command::Fix(granted, section_infos, symbol_offsets))
}

const fn place(feature: BtfFeature) -> usize {
    match feature {
        BtfFeature::Func => 0,
        BtfFeature::FuncGlobal => 1,
        BtfFeature::DataSec => 2,
        BtfFeature::DataSecZero => 3,
        BtfFeature::Float => 4,
        BtfFeature::DeclTag => 5,
        BtfFeature::TypeTag => 6,
        BtfFeature::Enum64 => 7,
    }
}

fn joined(words: &[u32]) -> String {
    words.iter().map(u32::to_string).collect::<Vec<_>>().join(" ")
}

/// The head of a declaration, off the bytes that the crate writes for it.
fn head(ty: &BtfType) -> Vec<u32> {
    let words = match ty {
        BtfType::Unknown => return vec![0, 0, 0],
        BtfType::Int(_) | BtfType::Var(_) | BtfType::DeclTag(_) => 4,
        BtfType::Array(_) => 6,
        _ => 3,
    };
    ty.to_bytes()
        .chunks_exact(4)
        .take(words)
        .map(|c| u32::from_ne_bytes([c[0], c[1], c[2], c[3]]))
        .collect()
}

fn element(ty: &BtfType, index: usize) -> Option<Vec<u32>> {
    match ty {
        BtfType::Enum(t) => t.variants.get(index).map(|e| vec![e.name_offset, e.value]),
        BtfType::Enum64(t) => t.variants.get(index).map(|e| vec![e.name_offset, e.value_low, e.value_high]),
        BtfType::Struct(t) => t.members.get(index).map(|e| vec![e.name_offset, e.btf_type, e.offset]),
        BtfType::Union(t) => t.members.get(index).map(|e| vec![e.name_offset, e.btf_type, e.offset]),
        BtfType::FuncProto(t) => t.params.get(index).map(|e| vec![e.name_offset, e.btf_type]),
        BtfType::DataSec(t) => t.entries.get(index).map(|e| vec![e.btf_type, e.offset, e.size]),
        _ => None,
    }
}

fn answer(btf: &mut Btf, command: Command) -> Answer {
    match command {
        Command::New => Answer::Unsupported,
        Command::Str(name) => Answer::Accepted(btf.add_string(&name).to_string()),
        Command::Type(declaration) => declaration.into_type().map(|ty| btf.add_type(ty).to_string()).into(),
        Command::String(offset) => btf.string_at(offset).map(|name| shown(&name)).into(),
        Command::Name(id) => btf
            .type_by_id(id)
            .and_then(|ty| btf.type_name(ty))
            .map(|name| shown(&name))
            .into(),
        Command::Get(id) => btf.type_by_id(id).map(|ty| joined(&head(ty))).into(),
        Command::Element(id, index) => match btf.type_by_id(id).map(|ty| element(ty, index as usize)) {
            Ok(Some(words)) => Answer::Accepted(joined(&words)),
            Ok(None) => Answer::NoElement,
            Err(error) => Answer::Refused(error),
        },
        Command::Resolve(id) => btf.resolve_type(id).map(|end| end.to_string()).into(),
        Command::Size(id, width) if width as usize == size_of::<&()>() => {
            btf.type_size(id).map(|size| size.to_string()).into()
        }
        Command::Size(..) => Answer::Unsupported,
        Command::Find(kind, name) => BtfKind::try_from(kind)
            .and_then(|kind| btf.id_by_type_name_kind(&name, kind))
            .map(|id| id.to_string())
            .into(),
        Command::Fix(granted, sections, symbols) => btf
            .fixup_and_sanitize(&sections, &symbols, |feature| granted[place(feature)])
            .map(|()| String::new())
            .into(),
        Command::Bytes(big) if big == cfg!(target_endian = "big") => {
            let bytes = btf.to_bytes();
            let mut text = format!("{} ", bytes.len());
            for byte in bytes {
                let _ = write!(text, "{byte:02x}");
            }
            Answer::Accepted(text)
        }
        Command::Bytes(_) => Answer::Unsupported,
    }
}

/// Runs one command, and says what it prints.
fn run_command(table: &mut Table, command: Command) -> Result<String, String> {
    if matches!(command, Command::New) {
        *table = Table::Held(Btf::new());
        return Ok("ok".to_owned());
    }
    let btf = match table {
        Table::None => return Err("there is no table yet: say new first".to_owned()),
        Table::Lost => return Ok("lost".to_owned()),
        Table::Held(btf) => btf,
    };
    let rewriting = matches!(command, Command::Fix(..));
    let (words, failed) = match catch_unwind(AssertUnwindSafe(|| answer(btf, command))) {
        Ok(answer) => (answer.to_string(), !matches!(answer, Answer::Accepted(_))),
        Err(_) => ("panic".to_owned(), true),
    };
    if rewriting && failed {
        *table = Table::Lost;
    }
    Ok(words)
}

/// Runs a script: every line is one command, an empty line or a comment.
pub fn run(input: impl BufRead, mut output: impl Write) -> Result<(), BadScript> {
    let mut table = Table::None;
    for (index, line) in input.lines().enumerate() {
        let bad = |what: String| BadScript { line: index + 1, what };
        let line = line.map_err(|error| bad(error.to_string()))?;
        if line.trim().is_empty() || line.starts_with('#') {
            continue;
        }
        let words = command(&line)
            .and_then(|command| run_command(&mut table, command))
            .map_err(bad)?;
        writeln!(output, "{words}").map_err(|error| bad(error.to_string()))?;
    }
    output.flush().map_err(|error| BadScript { line: 0, what: error.to_string() })
}
