//! The texts of rules. Numbers are written by hand, since the formatting machinery would take most
//! of the time.

use crate::section::{refused, Answer, Bytes};
use gimli::{CfaRule, Encoding, Endianity, Expression, Operation, Reader, RegisterRule};
use std::collections::HashMap;

/// A text that makes room before several writes, each of which then asks for none.
#[derive(Default)]
pub struct Text {
    bytes: Vec<u8>,
}

/// A rule without an expression, with its register, takes less.
pub const ROOM: usize = 64;

impl Text {
    #[inline(always)]
    pub fn bytes(&self) -> &[u8] {
        &self.bytes
    }

    #[inline(always)]
    pub fn len(&self) -> usize {
        self.bytes.len()
    }

    #[inline(always)]
    pub fn cut(&mut self, length: usize) {
        self.bytes.truncate(length);
    }

    #[inline(always)]
    pub fn reserve(&mut self, more: usize) {
        self.bytes.reserve(more);
    }

    /// Writes N bytes, of which the first `length` are kept. There has to be room for all N.
    #[inline(always)]
    fn put<const N: usize>(&mut self, text: &[u8; N], length: usize) {
        let end = self.bytes.len();
        debug_assert!(length <= N && end + N <= self.bytes.capacity());
        // SAFETY: callers reserve ROOM for what they write.
        unsafe {
            self.bytes
                .as_mut_ptr()
                .add(end)
                .cast::<[u8; N]>()
                .write_unaligned(*text);
            self.bytes.set_len(end + length);
        }
    }

    #[inline(always)]
    pub fn word<const N: usize>(&mut self, text: &[u8; N]) {
        self.put(text, N);
    }

    /// A text of any length, and room behind it for all rules of a row.
    pub fn long(&mut self, text: &[u8]) {
        self.bytes.extend_from_slice(text);
        self.bytes.reserve(200 * ROOM);
    }
}

/// A number in decimal digits: most are short.
#[inline(always)]
pub fn put_number(out: &mut Text, number: u64) {
    if number < 100 {
        let [a, b] = TWO_DIGITS[number as usize];
        if number < 10 {
            out.put(&[b], 1);
        } else {
            out.put(&[a, b], 2);
        }
    } else if number < 1000 {
        let hundreds = number * 41 >> 12;
        let [b, c] = TWO_DIGITS[(number - hundreds * 100) as usize];
        out.put(&[b'0' + hundreds as u8, b, c], 3);
    } else {
        put_long_number(out, number);
    }
}

#[inline(never)]
fn put_long_number(out: &mut Text, mut number: u64) {
    let mut digits = [0u8; 20];
    let mut first = digits.len();
    while number >= 10 {
        first -= 2;
        digits[first..first + 2].copy_from_slice(&TWO_DIGITS[(number % 100) as usize]);
        number /= 100;
    }
    if number > 0 {
        first -= 1;
        digits[first] = b'0' + number as u8;
    }
    for digit in &digits[first..] {
        out.put(&[*digit], 1);
    }
}

const TWO_DIGITS: [[u8; 2]; 100] = {
    let mut table = [[0; 2]; 100];
    let mut n = 0;
    while n < 100 {
        table[n] = [b'0' + (n / 10) as u8, b'0' + (n % 10) as u8];
        n += 1;
    }
    table
};

const HEX: [[u8; 2]; 256] = {
    let digits = b"0123456789abcdef";
    let mut table = [[0; 2]; 256];
    let mut n = 0;
    while n < 256 {
        table[n] = [digits[n >> 4], digits[n & 15]];
        n += 1;
    }
    table
};

pub fn put_address(out: &mut Text, address: u64) {
    let digits = (67 - (address | 1).leading_zeros() as usize) / 4;
    let mut text = *b"0x................";
    let mut rest = address << ((16 - digits) * 4);
    let mut at = 2;
    while at < 2 + digits {
        text[at..at + 2].copy_from_slice(&HEX[(rest >> 56) as usize]);
        rest <<= 8;
        at += 2;
    }
    out.put(&text, 2 + digits);
}

/// The end of a nonempty range, which may be one more than the last address.
pub fn put_end(out: &mut Text, begin: u64, length: u64) {
    match begin.checked_add(length) {
        Some(end) => put_address(out, end),
        None => out.long(format!("{:#x}", u128::from(begin) + u128::from(length)).as_bytes()),
    }
}

#[inline(always)]
fn put_offset(out: &mut Text, offset: i64) {
    out.word(&[if offset < 0 { b'-' } else { b'+' }]);
    put_number(out, offset.unsigned_abs());
}

#[inline(always)]
pub fn put_register(out: &mut Text, register: u16) {
    out.word(&[b'r']);
    put_number(out, register.into());
}

/// The operations of an expression, each with its code and the place behind it, and which of them
/// begins at a place.
struct Operations<'a, E: Endianity> {
    list: Vec<(u8, Operation<Bytes<'a, E>>, usize)>,
    at: HashMap<usize, usize>,
}

impl<'a, E: Endianity> Operations<'a, E> {
    fn new(bytes: Bytes<'a, E>, encoding: Encoding) -> Answer<Self> {
        let (mut rest, mut list, mut at) = (bytes, Vec::new(), HashMap::new());
        while !rest.is_empty() {
            let place = bytes.len() - rest.len();
            at.insert(place, list.len());
            let operation = Operation::parse(&mut rest, encoding).map_err(refused)?;
            list.push((bytes[place], operation, bytes.len() - rest.len()));
        }
        at.insert(bytes.len(), list.len());
        Ok(Operations { list, at })
    }

    fn target(&self, behind: usize, displacement: i16) -> Answer<usize> {
        behind
            .checked_add_signed(displacement.into())
            .and_then(|place| self.at.get(&place).copied())
            .ok_or_else(|| "a branch to no operation".into())
    }
}

// The names of operations without operands, as in the table of codes (DWARF 5, 7.7.1).
fn name<E: Endianity>(operation: &Operation<Bytes<E>>) -> Option<&'static str> {
    Some(match operation {
        Operation::Drop => "drop",
        Operation::Swap => "swap",
        Operation::Rot => "rot",
        Operation::Abs => "abs",
        Operation::And => "and",
        Operation::Div => "div",
        Operation::Minus => "minus",
        Operation::Mod => "mod",
        Operation::Mul => "mul",
        Operation::Neg => "neg",
        Operation::Not => "not",
        Operation::Or => "or",
        Operation::Plus => "plus",
        Operation::Shl => "shl",
        Operation::Shr => "shr",
        Operation::Shra => "shra",
        Operation::Xor => "xor",
        Operation::Eq => "eq",
        Operation::Ge => "ge",
        Operation::Gt => "gt",
        Operation::Le => "le",
        Operation::Lt => "lt",
        Operation::Ne => "ne",
        Operation::Nop => "nop",
        _ => return None,
    })
}

fn expression_text<E: Endianity>(
    expression: &Expression<Bytes<E>>,
    encoding: Encoding,
) -> Answer<String> {
    let bytes = expression.0;
    let operations = Operations::new(bytes, encoding)?;
    let mask = u64::MAX >> (64 - 8 * u32::from(encoding.address_size));
    let mut texts = Vec::new();
    for (code, operation, behind) in &operations.list {
        texts.push(match operation {
            Operation::Deref { .. } if *code == 0x06 => "deref".into(),
            Operation::Deref { size, .. } => format!("deref_size {size}"),
            Operation::Pick { .. } if *code == 0x12 => "dup".into(),
            Operation::Pick { .. } if *code == 0x14 => "over".into(),
            Operation::Pick { index } => format!("pick {index}"),
            Operation::PlusConstant { value } => format!("plus_uconst {value}"),
            Operation::UnsignedConstant { value } => format!("const {}", value & mask),
            Operation::SignedConstant { value } => format!("const {}", *value as u64 & mask),
            Operation::RegisterOffset {
                register, offset, ..
            } => format!("breg {} {offset}", register.0),
            Operation::Address { address } => format!("addr {address:#x}"),
            Operation::Bra { target } => format!("bra {}", operations.target(*behind, *target)?),
            Operation::Skip { target } => format!("skip {}", operations.target(*behind, *target)?),
            other => name(other)
                .ok_or("an operation of no rule of a frame")?
                .into(),
        });
    }
    Ok(format!("expr({})", texts.join("; ")))
}

#[inline(always)]
pub fn put_cfa<E: Endianity>(
    out: &mut Text,
    rule: &CfaRule<Bytes<E>>,
    encoding: Encoding,
) -> Answer<()> {
    match rule {
        CfaRule::RegisterAndOffset { register, offset } => {
            put_register(out, register.0);
            put_offset(out, *offset);
        }
        CfaRule::Expression(expression) => {
            out.long(expression_text(expression, encoding)?.as_bytes())
        }
    }
    Ok(())
}

#[inline(always)]
pub fn put_rule<E: Endianity>(
    out: &mut Text,
    rule: &RegisterRule<Bytes<E>>,
    encoding: Encoding,
) -> Answer<()> {
    match rule {
        RegisterRule::Undefined => out.word(&[b'u']),
        RegisterRule::SameValue => out.word(&[b's']),
        RegisterRule::Offset(offset) => {
            out.word(b"[cfa");
            put_offset(out, *offset);
            out.word(&[b']']);
        }
        RegisterRule::ValOffset(offset) => {
            out.word(b"cfa");
            put_offset(out, *offset);
        }
        RegisterRule::Register(register) => put_register(out, register.0),
        RegisterRule::Expression(expression) => {
            out.word(&[b'[']);
            out.long(expression_text(expression, encoding)?.as_bytes());
            out.word(&[b']']);
        }
        RegisterRule::ValExpression(expression) => {
            out.long(expression_text(expression, encoding)?.as_bytes());
        }
        RegisterRule::Architectural => return Err("a rule of no standard".into()),
    }
    Ok(())
}
