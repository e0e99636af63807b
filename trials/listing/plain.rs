//! A plain program that prints listings: it trusts each file, judges nothing, and proves nothing.
//!
//! It reads frames from its standard input, a length of four bytes and so many bytes each, and writes
//! the listing of each and a line `end`, as `jc_rows frames listings` does. Of a class file with no fault the
//! two texts are the same. A file that is none makes it panic.

use std::io::{stdin, stdout, Read, Stdout, Write};

mod opcodes;
use opcodes::{Operands, OPCODES};

const ROOM: usize = 1 << 16;
const WIDE: u8 = 196;

fn main() {
    let mut input = Vec::new();
    stdin().read_to_end(&mut input).expect("the frames are read");
    let mut text = Text {
        waiting: Vec::with_capacity(ROOM),
        out: stdout(),
    };
    let mut left = &input[..];
    while !left.is_empty() {
        let (frame, rest) = left[4..].split_at(u4(left, 0) as usize);
        Class::new(frame).list(&mut text);
        text.put(b"end\n");
        left = rest;
    }
    text.flush();
}

fn u2(bytes: &[u8], at: usize) -> u16 {
    u16::from_be_bytes([bytes[at], bytes[at + 1]])
}

fn u4(bytes: &[u8], at: usize) -> u32 {
    u32::from_be_bytes([bytes[at], bytes[at + 1], bytes[at + 2], bytes[at + 3]])
}

fn index(bytes: &[u8], at: usize) -> usize {
    usize::from(u2(bytes, at))
}

/// An offset of four bytes, from a place in the code.
fn target(place: usize, bytes: &[u8], at: usize) -> i64 {
    place as i64 + i64::from(u4(bytes, at) as i32)
}

/// Text on its way to standard output.
struct Text {
    waiting: Vec<u8>,
    out: Stdout,
}

impl Text {
    #[inline(always)]
    fn put(&mut self, bytes: &[u8]) {
        if self.waiting.len() + bytes.len() > ROOM {
            self.flush();
        }
        self.waiting.extend_from_slice(bytes);
    }

    #[inline(never)]
    fn flush(&mut self) {
        self.out.write_all(&self.waiting).expect("the text is written");
        self.waiting.clear();
    }

    fn number(&mut self, number: impl Into<i64>) {
        let number = number.into();
        let mut digits = [0; 20];
        let mut front = digits.len();
        let mut left = number.unsigned_abs();
        loop {
            front -= 1;
            digits[front] = b'0' + (left % 10) as u8;
            left /= 10;
            if left == 0 {
                break;
            }
        }
        if number < 0 {
            self.put(b"-");
        }
        self.put(&digits[front..]);
    }

    fn hexadecimal(&mut self, bytes: &[u8]) {
        let digits = b"0123456789abcdef";
        for byte in bytes {
            self.put(&[digits[usize::from(byte >> 4)], digits[usize::from(byte & 15)]]);
        }
    }

    fn index(&mut self, index: usize) {
        self.put(b"#");
        self.number(index as i64);
    }

    fn shown(&mut self, text: &[u8]) {
        if text.iter().fold(true, |plain, byte| plain & is_plain(u16::from(*byte))) {
            self.put(text);
        } else {
            self.escaped(text);
        }
    }

    fn escaped(&mut self, text: &[u8]) {
        let mut at = 0;
        while at < text.len() {
            let (unit, size) = unit(&text[at..]);
            at += size;
            if is_plain(unit) {
                self.put(&[unit as u8]);
            } else if unit == u16::from(b'\\') {
                self.put(b"\\\\");
            } else {
                self.put(b"\\u");
                self.hexadecimal(&unit.to_be_bytes());
            }
        }
    }

    fn flags(&mut self, flags: u16, names: &[(u16, &str)]) {
        self.put(b"0x");
        self.hexadecimal(&flags.to_be_bytes());
        for (bit, name) in names {
            if flags & bit != 0 {
                self.put(b" ");
                self.put(name.as_bytes());
            }
        }
    }
}

fn is_plain(unit: u16) -> bool {
    (0x20 <= unit) & (unit <= 0x7e) & (unit != 0x5c)
}

/// The first unit of a text of modified UTF-8, and how many bytes spell it.
fn unit(text: &[u8]) -> (u16, usize) {
    let bits = |at: usize| u16::from(text[at] & 0x3f);
    match text[0] {
        byte @ 0..=0x7f => (u16::from(byte), 1),
        byte @ 0x80..=0xdf => (u16::from(byte & 0x1f) << 6 | bits(1), 2),
        byte => (u16::from(byte & 0xf) << 12 | bits(1) << 6 | bits(2), 3),
    }
}

#[rustfmt::skip]
const OF_CLASS: [(u16, &str); 8] = [
    (0x0001, "PUBLIC"), (0x0010, "FINAL"), (0x0020, "SUPER"), (0x0200, "INTERFACE"),
    (0x0400, "ABSTRACT"), (0x1000, "SYNTHETIC"), (0x2000, "ANNOTATION"), (0x4000, "ENUM"),
];
#[rustfmt::skip]
const OF_FIELD: [(u16, &str); 9] = [
    (0x0001, "PUBLIC"), (0x0002, "PRIVATE"), (0x0004, "PROTECTED"), (0x0008, "STATIC"), (0x0010, "FINAL"),
    (0x0040, "VOLATILE"), (0x0080, "TRANSIENT"), (0x1000, "SYNTHETIC"), (0x4000, "ENUM"),
];
#[rustfmt::skip]
const OF_METHOD: [(u16, &str); 12] = [
    (0x0001, "PUBLIC"), (0x0002, "PRIVATE"), (0x0004, "PROTECTED"), (0x0008, "STATIC"), (0x0010, "FINAL"),
    (0x0020, "SYNCHRONIZED"), (0x0040, "BRIDGE"), (0x0080, "VARARGS"), (0x0100, "NATIVE"),
    (0x0400, "ABSTRACT"), (0x0800, "STRICT"), (0x1000, "SYNTHETIC"),
];
#[rustfmt::skip]
const KINDS: [&str; 19] = [
    "", "Utf8", "", "Integer", "Float", "Long", "Double", "Class", "String", "Fieldref", "Methodref",
    "InterfaceMethodref", "NameAndType", "", "", "MethodHandle", "MethodType", "", "InvokeDynamic",
];

#[derive(Clone, Copy, PartialEq)]
enum Holder {
    Class,
    Field,
    Method,
    Code,
}

/// A class file, with the place of each constant, 0 where none begins, and that of what follows them.
struct Class<'a> {
    bytes: &'a [u8],
    places: Vec<usize>,
    tail: usize,
}

impl<'a> Class<'a> {
    fn new(bytes: &'a [u8]) -> Class<'a> {
        let count = index(bytes, 8);
        let mut places = Vec::with_capacity(count);
        places.push(0);
        let mut at = 10;
        while places.len() < count {
            places.push(at);
            at += match bytes[at] {
                1 => 3 + index(bytes, at + 1),
                3 | 4 | 9..=12 | 18 => 5,
                5 | 6 => {
                    places.push(0);
                    9
                }
                15 => 4,
                _ => 3,
            };
        }
        Class {
            bytes,
            places,
            tail: at,
        }
    }

    /// The place of a constant behind its tag, if it has this one.
    fn body(&self, index: usize, tag: u8) -> Option<usize> {
        let place = *self.places.get(index)?;
        (place != 0 && self.bytes[place] == tag).then_some(place + 1)
    }

    fn utf8(&self, index: usize) -> Option<&'a [u8]> {
        let body = self.body(index, 1)?;
        Some(&self.bytes[body + 2..][..usize::from(u2(self.bytes, body))])
    }

    fn class_text(&self, at: usize) -> Option<&'a [u8]> {
        self.utf8(index(self.bytes, self.body(at, 7)?))
    }

    fn list(&self, text: &mut Text) {
        let (bytes, tail) = (self.bytes, self.tail);
        text.put(b"class ");
        text.shown(self.class_text(index(bytes, tail + 2)).unwrap_or(b"?"));
        text.put(b"\nflags ");
        text.flags(u2(bytes, tail), &OF_CLASS);
        text.put(b"\nversion ");
        text.number(u2(bytes, 6));
        text.put(b".");
        text.number(u2(bytes, 4));
        text.put(b"\nsuper ");
        match index(bytes, tail + 4) {
            0 => text.put(b"none"),
            above => text.shown(self.class_text(above).unwrap_or(b"?")),
        }
        text.put(b"\n");
        let mut at = tail + 8;
        for _ in 0..u2(bytes, tail + 6) {
            text.put(b"interface ");
            text.shown(self.class_text(index(bytes, at)).unwrap_or(b"?"));
            text.put(b"\n");
            at += 2;
        }
        self.list_constants(text);
        at = self.list_members(text, at, b"field", &OF_FIELD, Holder::Field);
        at = self.list_members(text, at, b"method", &OF_METHOD, Holder::Method);
        self.list_attributes(text, at, b"", Holder::Class);
    }

    fn list_constants(&self, text: &mut Text) {
        text.put(b"constants ");
        text.number(self.places.len() as i64 - 1);
        text.put(b"\n");
        for (index, place) in self.places.iter().enumerate() {
            if *place != 0 {
                self.list_constant(text, index, *place);
            }
        }
    }

    fn list_constant(&self, text: &mut Text, number: usize, place: usize) {
        let (tag, body) = (self.bytes[place], &self.bytes[place + 1..]);
        text.put(b"  ");
        text.index(number);
        text.put(b" ");
        text.put(KINDS[usize::from(tag)].as_bytes());
        text.put(b" ");
        match tag {
            1 => text.shown(&body[2..][..index(body, 0)]),
            3 => text.number(u4(body, 0) as i32),
            4 => {
                text.put(b"0x");
                text.hexadecimal(&body[..4]);
            }
            5 => text.number((u64::from(u4(body, 0)) << 32 | u64::from(u4(body, 4))) as i64),
            6 => {
                text.put(b"0x");
                text.hexadecimal(&body[..8]);
            }
            9..=12 => {
                text.index(index(body, 0));
                text.put(b" ");
                text.index(index(body, 2));
            }
            15 => {
                text.number(body[0]);
                text.put(b" ");
                text.index(index(body, 1));
            }
            18 => {
                text.number(u2(body, 0));
                text.put(b" ");
                text.index(index(body, 2));
            }
            _ => text.index(index(body, 0)),
        }
        text.put(b"\n");
    }

    /// Behind a blank, what a constant refers to.
    fn list_reference(&self, text: &mut Text, at: usize) {
        let Some(place) = self.places.get(at).filter(|place| **place != 0) else {
            return;
        };
        let (tag, body) = (self.bytes[*place], &self.bytes[place + 1..]);
        let word: &[u8] = match tag {
            7 => b" class ",
            9 => b" field ",
            10 => b" method ",
            11 => b" imethod ",
            _ => return,
        };
        text.put(word);
        if tag == 7 {
            text.shown(self.utf8(index(body, 0)).unwrap_or(b"?"));
            return;
        }
        let member = self.body(index(body, 2), 12).map(|at| &self.bytes[at..]);
        text.shown(self.class_text(index(body, 0)).unwrap_or(b"?"));
        text.put(b".");
        text.shown(member.and_then(|it| self.utf8(index(it, 0))).unwrap_or(b"?"));
        text.put(b":");
        text.shown(member.and_then(|it| self.utf8(index(it, 2))).unwrap_or(b"?"));
    }

    fn list_entry(&self, text: &mut Text, index: usize) {
        text.put(b" ");
        text.index(index);
        self.list_reference(text, index);
    }

    /// Lists the members of a table, and gives the place behind it.
    fn list_members(&self, text: &mut Text, table: usize, word: &[u8], names: &[(u16, &str)], holder: Holder) -> usize {
        let bytes = self.bytes;
        let mut at = table + 2;
        for _ in 0..u2(bytes, table) {
            text.put(word);
            text.put(b" ");
            text.shown(self.utf8(index(bytes, at + 2)).unwrap_or(b"?"));
            text.put(b" ");
            text.shown(self.utf8(index(bytes, at + 4)).unwrap_or(b"?"));
            text.put(b" ");
            text.flags(u2(bytes, at), names);
            text.put(b"\n");
            at = self.list_attributes(text, at + 6, b"  ", holder);
        }
        at
    }

    fn list_attributes(&self, text: &mut Text, table: usize, indent: &[u8], holder: Holder) -> usize {
        let mut at = table + 2;
        for _ in 0..u2(self.bytes, table) {
            if holder == Holder::Method && self.utf8(index(self.bytes, at)) == Some(b"Code") {
                self.list_code(text, at + 6);
            } else {
                self.list_attribute(text, at, indent, holder);
            }
            at += 6 + u4(self.bytes, at + 2) as usize;
        }
        at
    }

    fn list_attribute(&self, text: &mut Text, at: usize, indent: &[u8], holder: Holder) {
        let name = self.utf8(index(self.bytes, at));
        let length = u4(self.bytes, at + 2);
        text.put(indent);
        text.put(b"attribute ");
        text.shown(name.unwrap_or(b"?"));
        text.put(b" ");
        text.number(length);
        if length == 2 {
            let entry = index(self.bytes, at + 6);
            match (name, holder) {
                (Some(b"SourceFile"), Holder::Class)
                | (Some(b"Signature"), Holder::Class | Holder::Field | Holder::Method) => {
                    text.put(b" ");
                    text.shown(self.utf8(entry).unwrap_or(b"?"));
                }
                (Some(b"ConstantValue"), Holder::Field) => {
                    text.put(b" ");
                    text.index(entry);
                }
                _ => {}
            }
        }
        text.put(b"\n");
    }

    fn list_code(&self, text: &mut Text, at: usize) {
        let bytes = self.bytes;
        let length = u4(bytes, at + 4);
        text.put(b"  code stack ");
        text.number(u2(bytes, at));
        text.put(b" locals ");
        text.number(u2(bytes, at + 2));
        text.put(b" length ");
        text.number(length);
        text.put(b"\n");
        let handlers = at + 8 + length as usize;
        let code = &bytes[at + 8..handlers];
        let mut place = 0;
        while place < code.len() {
            place = self.list_instruction(text, code, place);
        }
        let mut at = handlers + 2;
        for _ in 0..u2(bytes, handlers) {
            self.list_handler(text, at);
            at += 8;
        }
        self.list_attributes(text, at, b"    ", Holder::Code);
    }

    fn list_handler(&self, text: &mut Text, at: usize) {
        text.put(b"    catch");
        for part in 0..3 {
            text.put(b" ");
            text.number(u2(self.bytes, at + 2 * part));
        }
        match index(self.bytes, at + 6) {
            0 => text.put(b" any"),
            class => self.list_entry(text, class),
        }
        text.put(b"\n");
    }

    /// Lists the instruction at a place, and gives that of the next.
    fn list_instruction(&self, text: &mut Text, code: &[u8], place: usize) -> usize {
        text.put(b"    ");
        text.number(place as i64);
        text.put(b": ");
        let is_wide = code[place] == WIDE;
        let at = if is_wide { place + 2 } else { place + 1 };
        if is_wide {
            text.put(b"wide ");
        }
        let (mnemonic, operands) = OPCODES[usize::from(code[at - 1])];
        text.put(mnemonic.as_bytes());
        let next = match operands {
            Operands::TableSwitch => return list_table_switch(text, code, place),
            Operands::LookupSwitch => return list_lookup_switch(text, code, place),
            _ if is_wide => list_wide(text, code, at, operands),
            _ => self.list_operands(text, code, place, operands),
        };
        text.put(b"\n");
        next
    }

    fn list_operands(&self, text: &mut Text, code: &[u8], place: usize, operands: Operands) -> usize {
        let at = place + 1;
        let mut number = |number: i64| {
            text.put(b" ");
            text.number(number);
        };
        match operands {
            Operands::Byte => number(i64::from(code[at] as i8)),
            Operands::Short => number(i64::from(u2(code, at) as i16)),
            Operands::Local | Operands::NewArray => number(i64::from(code[at])),
            Operands::Branch => number(place as i64 + i64::from(u2(code, at) as i16)),
            Operands::WideBranch => number(target(place, code, at)),
            Operands::Increment => {
                number(i64::from(code[at]));
                number(i64::from(code[at + 1] as i8));
            }
            Operands::ShortLoad => self.list_entry(text, usize::from(code[at])),
            Operands::Load | Operands::Field | Operands::Invoke | Operands::Type | Operands::InvokeDynamic => {
                self.list_entry(text, index(code, at))
            }
            Operands::InvokeInterface | Operands::MultiNewArray => {
                text.put(b" ");
                text.index(index(code, at));
                text.put(b" ");
                text.number(code[at + 2]);
                self.list_reference(text, index(code, at));
            }
            _ => {}
        }
        at + operands.len()
    }
}

fn list_wide(text: &mut Text, code: &[u8], at: usize, operands: Operands) -> usize {
    text.put(b" ");
    text.number(u2(code, at));
    if operands != Operands::Increment {
        return at + 2;
    }
    text.put(b" ");
    text.number(u2(code, at + 2) as i16);
    at + 4
}

fn list_table_switch(text: &mut Text, code: &[u8], place: usize) -> usize {
    let at = (place + 4) & !3;
    let (low, high) = (u4(code, at + 4) as i32, u4(code, at + 8) as i32);
    text.put(b" ");
    text.number(low);
    text.put(b" ");
    text.number(high);
    list_default(text, target(place, code, at));
    let mut at = at + 12;
    for value in low..=high {
        list_case(text, value, target(place, code, at));
        at += 4;
    }
    at
}

fn list_lookup_switch(text: &mut Text, code: &[u8], place: usize) -> usize {
    let at = (place + 4) & !3;
    let count = u4(code, at + 4);
    text.put(b" ");
    text.number(count);
    list_default(text, target(place, code, at));
    let mut at = at + 8;
    for _ in 0..count {
        list_case(text, u4(code, at) as i32, target(place, code, at + 4));
        at += 8;
    }
    at
}

fn list_default(text: &mut Text, target: i64) {
    text.put(b" default ");
    text.number(target);
    text.put(b"\n");
}

fn list_case(text: &mut Text, value: i32, target: i64) {
    text.put(b"      ");
    text.number(value);
    text.put(b": ");
    text.number(target);
    text.put(b"\n");
}
