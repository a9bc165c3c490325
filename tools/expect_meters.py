#!/usr/bin/env python3
"""What the program `meters` must print, worked out apart from it.

    tools/expect_meters.py [SHEET] > OUT      the whole output for a swap sheet (crates/meters/stdin)
    tools/expect_meters.py --files DIR        the two files, DIR/little.btf and DIR/big.btf
    tools/expect_meters.py --check            whether crates/meters/stdout is that for crates/meters/stdin

The meter's table is written here once more, by the layout of the kernel's btf.h: a header of 24 bytes (magic
0xeb9f, version 1, flags 0, header length, type offset and length, string offset and length), records of
three words (name offset; element count, kind << 24 and flag << 31; size or type) with the extra words of some
kinds and the elements behind them, and the names, each with a zero byte, from an empty one on. The answers to
the questions are worked out from the records, and the sheet is read by Python's own means.
"""
import os
import re
import struct
import sys

HERE = os.path.dirname(os.path.abspath(__file__))
METERS = os.path.join(HERE, "..", "crates", "meters")

(INT, PTR, ARRAY, STRUCT, UNION, ENUM, FWD, TYPEDEF, VOLATILE, CONST, RESTRICT, FUNC, FUNC_PROTO, VAR, DATASEC,
 FLOAT, DECL_TAG, TYPE_TAG, ENUM64) = range(1, 20)
WORDS = ("VOID INT PTR ARRAY STRUCT UNION ENUM FWD TYPEDEF VOLATILE CONST RESTRICT FUNC FUNC_PROTO VAR DATASEC "
         "FLOAT DECL_TAG TYPE_TAG ENUM64").split()
SIZED = {INT, STRUCT, UNION, ENUM, DATASEC, FLOAT, ENUM64}
ENDED = {TYPEDEF, VOLATILE, CONST, RESTRICT, TYPE_TAG}
LIMIT = 1 << 20


class Meter:
    def __init__(self):
        self.out = []
        self.strings = b"\0"
        self.records = [(0, 0, 0, 0, 0, [], [])]  # name, kind, flag, low bits, third word, extra, elements

    def say(self, text):
        self.out.append(text)

    def name(self, text):
        at = len(self.strings)
        self.strings += text.encode() + b"\0"
        self.say(f"name {at} {text}")
        return at

    def text(self, at):
        return self.strings[at:self.strings.index(0, at)].decode()

    def add(self, kind, name=0, third=0, flag=0, low=None, extra=(), elements=()):
        low = len(elements) if low is None else low
        self.records.append((name, kind, flag, low, third, list(extra), list(elements)))
        i = len(self.records) - 1
        line = f"id {i} {WORDS[kind]}"
        if name:
            line += " " + self.text(name)
        if kind in SIZED:
            line += f" {third} bytes"
        elif kind == ARRAY:
            line += f" {extra[2]} times id {extra[0]}"
        elif kind != FWD:
            line += f" of id {third}"
        if flag:
            line += ", flagged"
        if elements:
            line += f", {len(elements)} elements"
        self.say(line)
        return i

    # ---- the questions

    def ends(self, i):
        links = 0
        while self.records[i][1] in ENDED:
            i, links = self.records[i][4], links + 1
        return i, links

    def size(self, i, pointer):
        count, links = 1, 0
        while True:
            _, kind, _, _, third, extra, _ = self.records[i]
            if kind in SIZED:
                return third * count, links
            if kind == PTR:
                return pointer * count, links
            i, count = (extra[0], count * extra[2]) if kind == ARRAY else (third, count)
            links += 1

    def ask_size(self, i):
        (a, links), (b, _) = self.size(i, 4), self.size(i, 8)
        both = f"{a} bytes" if a == b else f"{a} or {b} bytes, as pointers have 4 or 8"
        self.say(f"size of id {i}: {both}, {links} links")

    def ask_end(self, i):
        end, links = self.ends(i)
        self.say(f"end of id {i}: id {end}, {links} links")

    def ask_id(self, kind, name):
        found = [i for i, r in enumerate(self.records) if r[1] == kind and self.text(r[0]) == name]
        self.say(f"id of {WORDS[kind]} {name}: " + (str(found[0]) if found else "refused 11"))

    # ---- the file

    def file(self, order):
        types = b""
        for name, kind, flag, low, third, extra, elements in self.records[1:]:
            words = [name, low | kind << 24 | flag << 31, third] + extra
            for element in elements:
                words += element
            types += struct.pack(f"{order}{len(words)}I", *[w & 0xFFFFFFFF for w in words])
        header = struct.pack(f"{order}HBBIIIII", 0xEB9F, 1, 0, 24, 0, len(types), len(types), len(self.strings))
        return header + types + self.strings


def declared():
    """The meter's table with what is said while it is made, and what is asked of it."""
    m = Meter()
    u32 = m.add(INT, m.name("u32"), 4, extra=[32])
    u64 = m.add(INT, m.name("u64"), 8, extra=[64])
    char = m.add(INT, m.name("char"), 1, extra=[2 << 24 | 8])
    sint = m.add(INT, m.name("int"), 4, extra=[1 << 24 | 32])

    name = m.name("counters")
    counters = m.add(STRUCT, name, 24, elements=[
        [m.name("packets"), u64, 0], [m.name("bytes"), u64, 64], [m.name("errors"), u64, 128]])
    pointer = m.add(PTR, third=counters)
    lines = m.add(ARRAY, extra=[counters, u32, 16])
    alias = m.add(TYPEDEF, m.name("counters_t"), counters)
    const = m.add(CONST, third=alias)
    volatile = m.add(VOLATILE, third=u64)
    restrict = m.add(RESTRICT, third=pointer)

    name = m.name("verdict")
    verdict = m.add(ENUM, name, 4, flag=1, elements=[
        [m.name("VERDICT_DROP"), -1], [m.name("VERDICT_PASS"), 0], [m.name("VERDICT_COUNT"), 1]])
    name = m.name("line_marks")
    marks = m.add(ENUM64, name, 8, elements=[
        [m.name("LINE_UP"), 1, 0], [m.name("LINE_BILLED"), (1 << 40) & 0xFFFFFFFF, (1 << 40) >> 32]])

    buffer = m.add(FWD, m.name("__sk_buff"))
    packet = m.add(PTR, third=buffer)
    name = m.name("line_key")
    key = m.add(UNION, name, 8, elements=[
        [m.name("whole"), u64, 0], [m.name("line"), u32, 0], [m.name("port"), char, 0]])
    m.add(FLOAT, m.name("double"), 8)
    tag = m.add(TYPE_TAG, m.name("percpu"), counters)
    m.add(PTR, third=tag)

    kind = m.add(PTR, third=m.add(ARRAY, extra=[sint, u32, 2]))
    most = m.add(PTR, third=m.add(ARRAY, extra=[sint, u32, 16]))
    keys = m.add(PTR, third=u32)
    fields = [[m.name("type"), kind, 0], [m.name("max_entries"), most, 64], [m.name("key"), keys, 128],
              [m.name("value"), pointer, 192]]
    struct_ = m.add(STRUCT, third=32, elements=fields)
    var = m.add(VAR, m.name("lines"), struct_, extra=[1])
    section = m.add(DATASEC, m.name(".maps"), 32, elements=[[var, 0, 32]])

    params = [[m.name("packet"), packet], [m.name("number"), u32]]
    proto = m.add(FUNC_PROTO, third=sint, elements=params)
    func = m.add(FUNC, m.name("count_packet"), proto, low=1)
    m.add(DECL_TAG, m.name("billed"), func, extra=[-1])

    for i in (u32, char, counters, pointer, lines, const, volatile, restrict, key, var, section):
        m.ask_size(i)
    for i in (const, restrict, counters):
        m.ask_end(i)
    m.say(f"name of id {func}: count_packet")
    m.say(f"name of id {pointer}: none")
    m.say(f"string at 1: {m.text(1)}")
    m.ask_id(STRUCT, "counters")
    m.ask_id(FUNC, "count_packet")
    for k, (at, of, bit) in enumerate(m.records[counters][6]):
        m.say(f"element {k} of id {counters}: name {at} of id {of} at bit {bit}")
    at, value = m.records[verdict][6][0]
    m.say(f"element 0 of id {verdict}: name {at} value {value & 0xFFFFFFFF}")
    at, low, high = m.records[marks][6][1]
    m.say(f"element 1 of id {marks}: name {at} value low {low} high {high}")
    m.say(f"element 0 of id {section}: id {var} at byte 0, 32 bytes")
    m.say("size of id 99: refused 7: id 99")
    m.say(f"size of id {func}: refused 8: at id {func}")
    m.say(f"size of id {buffer}: refused 8: at id {buffer}")
    m.say("end of id 99: refused 7: id 99")
    m.say("string at 5000: refused 6: offset 5000")
    m.ask_id(UNION, "counters")
    m.say(f"element 3 of id {counters}: refused 18: at id {counters}, element 3")
    return m


def shown(field):
    try:
        text = field.decode("utf-8")
    except UnicodeDecodeError:
        return "".join(chr(b) if 32 <= b < 127 else f"\\x{b:02x}" for b in field)
    return re.sub("[\0-\x1f\x7f-\x9f]", lambda c: f"\\x{ord(c[0]):02x}", text)


def fault(fields, seen):
    """Why a row is malformed, or nothing. Keeps the names that stood in rows."""
    if len(fields) != 3:
        return f"the row has {len(fields)} fields, not 3"
    name = fields[0]
    if not name:
        return "the gateway has no name"
    if len(name) > 64:
        return f"the name has {len(name)} bytes, more than 64"
    odd = re.search(rb"[^ -~]", name)
    if odd:
        return f"byte {odd.start()} of the name is not printable ASCII"
    if name in seen:
        return f"the name stood in line {seen[name]}"
    return None


def swaps(say, sheet, files):
    cut = len(sheet) > LIMIT
    if cut:
        sheet = sheet[:sheet.rfind(b"\n", 0, LIMIT) + 1]
    lines = sheet.split(b"\n")
    if lines[-1] == b"":
        lines.pop()
    seen, given, gateways, malformed = {}, [], [], 0
    for number, line in enumerate(lines, 1):
        line = line[:-1] if line.endswith(b"\r") else line
        if line.startswith(b"#") or not line.strip(b" \t"):
            continue
        fields = line.split(b",")
        why = fault(fields, seen)
        if not why:
            seen[fields[0]] = number
            if fields[1] not in files:
                why = "the byte order is neither little nor big"
        if why:
            malformed += 1
            say(f"line {number}: malformed, {why}")
            continue
        name, order, kernel = fields
        if files[order] not in given:
            given.append(files[order])
        file = given.index(files[order]) + 1
        gateways.append((name.decode(), file))
        written = f'kernel "{shown(kernel)}"' if kernel else "no kernel written"
        say(f"line {number}: {name.decode()} gets file {file}, {written}")
    if cut:
        say(f"the sheet is too long: nothing is read past line {len(lines)}")
    for file, content in enumerate(given, 1):
        say(f"file {file}, {len(content)} bytes, billed alike:")
        for name, of in gateways:
            if of == file:
                say(f"  {name}")
    say(f"{len(gateways)} gateways, {len(given)} files, {malformed} malformed rows")


def expected(sheet):
    m = declared()
    little, big = m.file("<"), m.file(">")
    for word, file in (("little", little), ("big", big)):
        m.say(f"{word} endian, {len(file)} bytes")
        for at in range(0, len(file), 32):
            m.say(file[at:at + 32].hex())
    swaps(m.say, sheet, {b"little": little, b"big": big})
    return "".join(line + "\n" for line in m.out).encode()


def read(path):
    with open(path, "rb") as f:
        return f.read()


def main(args):
    sheet = os.path.join(METERS, "stdin")
    if args[:1] == ["--files"]:
        m = declared()
        for word, order in (("little", "<"), ("big", ">")):
            with open(os.path.join(args[1], word + ".btf"), "wb") as f:
                f.write(m.file(order))
    elif args[:1] == ["--check"]:
        same = expected(read(sheet)) == read(os.path.join(METERS, "stdout"))
        print("crates/meters/stdout is as expected" if same else "crates/meters/stdout is NOT as expected")
        return 0 if same else 1
    else:
        sys.stdout.buffer.write(expected(read(args[0] if args else sheet)))
    return 0


if __name__ == "__main__":
    sys.exit(main(sys.argv[1:]))
