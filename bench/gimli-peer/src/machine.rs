//! A machine that stopped, as a dump says: what its registers and its memory hold.

use crate::section::{refused, Answer, Bytes};
use gimli::{
    Encoding, Endianity, Error, Evaluation, EvaluationResult, EvaluationStorage, Expression,
    Format, Location, Piece, Reader, Register, StoreOnHeap, Value,
};

/// What is known of a register.
#[derive(Clone, Copy, PartialEq)]
pub enum Slot {
    Unlisted,
    Undefined,
    Value(u64),
}

/// Consecutive bytes.
struct Range {
    begin: u64,
    bytes: Vec<u8>,
}

pub struct Machine<E: Endianity> {
    pub pc: u64,
    /// By number.
    pub registers: Vec<Slot>,
    /// By address. No two touch.
    memory: Vec<Range>,
    pub size: u8,
    order: E,
}

/// The room of an evaluation in place: most blocks need a few values.
struct InPlace;

impl<R: Reader> EvaluationStorage<R> for InPlace {
    type Stack = [Value; 8];
    type ExpressionStack = [(R, R); 1];
    type Result = [Piece<R>; 1];
}

/// The place of a register in a list by number, which is made longer for it.
#[inline(always)]
pub fn slot_of(registers: &mut Vec<Slot>, register: u16) -> &mut Slot {
    let number = usize::from(register);
    if number >= registers.len() {
        registers.resize(number + 1, Slot::Unlisted);
    }
    &mut registers[number]
}

fn number(text: &str) -> Answer<u64> {
    u64::from_str_radix(text.trim_start_matches("0x"), 16).map_err(|error| error.to_string())
}

/// Bytes of two digits each.
pub fn bytes_of(hex: &str) -> Answer<Vec<u8>> {
    let digits: Option<Vec<u8>> = hex
        .chars()
        .map(|digit| digit.to_digit(16).map(|digit| digit as u8))
        .collect();
    match digits {
        Some(digits) if digits.len() % 2 == 0 => {
            Ok(digits.chunks(2).map(|two| two[0] << 4 | two[1]).collect())
        }
        _ => Err(format!("{hex}: not bytes in hexadecimal")),
    }
}

fn joined(mut ranges: Vec<Range>) -> Vec<Range> {
    ranges.sort_unstable_by_key(|range| range.begin);
    let mut all: Vec<Range> = Vec::new();
    for range in ranges {
        match all.last_mut() {
            Some(last) if last.begin + last.bytes.len() as u64 == range.begin => {
                last.bytes.extend(range.bytes);
            }
            _ => all.push(range),
        }
    }
    all
}

impl<E: Endianity> Machine<E> {
    /// One of which nothing is known.
    pub fn new(size: u8, order: E) -> Self {
        Machine {
            pc: 0,
            registers: Vec::new(),
            memory: Vec::new(),
            size,
            order,
        }
    }

    pub fn parse(dump: &str, size: u8, order: E) -> Answer<Self> {
        let mut machine = Machine::new(size, order);
        let mut memory = Vec::new();
        for line in dump.lines() {
            match line.split(' ').collect::<Vec<_>>()[..] {
                ["pc", value] => machine.pc = number(value)?,
                ["mem", address, bytes] => memory.push(Range {
                    begin: number(address)?,
                    bytes: bytes_of(bytes)?,
                }),
                [name, value] if name.starts_with('r') => {
                    let register = name[1..]
                        .parse()
                        .map_err(|_| format!("{line}: no register"))?;
                    *slot_of(&mut machine.registers, register) = Slot::Value(number(value)?);
                }
                _ => {}
            }
        }
        machine.memory = joined(memory);
        Ok(machine)
    }

    /// An address: 2^32 is 0 where addresses have four bytes.
    #[inline(always)]
    pub fn address(&self, base: u64, offset: i64) -> u64 {
        base.wrapping_add_signed(offset) & u64::MAX >> (64 - 8 * u32::from(self.size))
    }

    #[inline(always)]
    pub fn register(&self, register: Register) -> Answer<u64> {
        match self.registers.get(usize::from(register.0)) {
            Some(Slot::Value(value)) => Ok(*value),
            _ => Err("NoRegister".into()),
        }
    }

    #[inline(always)]
    pub fn read(&self, address: u64, len: u8) -> Answer<u64> {
        let place = self.memory.partition_point(|range| range.begin <= address);
        let range = place.checked_sub(1).map(|place| &self.memory[place]);
        let rest = range.and_then(|range| range.bytes.get((address - range.begin) as usize..));
        match rest.and_then(|rest| rest.get(..usize::from(len))) {
            Some(bytes) if len == 8 => Ok(self.order.read_u64(bytes)),
            Some(bytes) if len == 4 => Ok(self.order.read_u32(bytes).into()),
            Some(bytes) => Ok({ self.order }.read_uint(bytes)),
            None => Err("Unreadable".into()),
        }
    }

    /// The value of an expression behind an optional first one on the stack, in so many steps.
    pub fn value<S: Endianity>(
        &self,
        expression: &Expression<Bytes<S>>,
        first: Option<u64>,
        steps: u32,
    ) -> Answer<u64> {
        let encoding = Encoding {
            address_size: self.size,
            format: Format::Dwarf32,
            version: 5,
        };
        let block = expression.0;
        let in_place = Evaluation::<_, InPlace>::new_in(block, encoding);
        match self.value_of(in_place, first, steps) {
            Err(Error::StackFull) => {
                let on_heap = Evaluation::<_, StoreOnHeap>::new_in(block, encoding);
                self.value_of(on_heap, first, steps).map_err(refused)?
            }
            done => done.map_err(refused)?,
        }
    }

    #[inline(always)]
    fn value_of<'a, S: Endianity, R: EvaluationStorage<Bytes<'a, S>>>(
        &self,
        mut evaluation: Evaluation<Bytes<'a, S>, R>,
        first: Option<u64>,
        steps: u32,
    ) -> Result<Answer<u64>, Error> {
        evaluation.set_max_iterations(steps);
        if let Some(first) = first {
            evaluation.set_initial_value(first);
        }
        let mut result = evaluation.evaluate()?;
        loop {
            result = match result {
                EvaluationResult::Complete => break,
                EvaluationResult::RequiresMemory { address, size, .. } => {
                    match self.read(address, size) {
                        Ok(value) => evaluation.resume_with_memory(Value::Generic(value))?,
                        Err(fault) => return Ok(Err(fault)),
                    }
                }
                EvaluationResult::RequiresRegister { register, .. } => {
                    match self.register(register) {
                        Ok(value) => evaluation.resume_with_register(Value::Generic(value))?,
                        Err(fault) => return Ok(Err(fault)),
                    }
                }
                other => return Ok(Err(format!("{other:?}"))),
            }
        }
        Ok(
            match evaluation.as_result().first().map(|piece| &piece.location) {
                Some(Location::Address { address }) => Ok(*address),
                other => Err(format!("no value, but {other:?}")),
            },
        )
    }
}
