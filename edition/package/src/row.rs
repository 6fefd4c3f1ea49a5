//! Rows: the rules at an address.

use crate::proved::dw_row::{self, RegRule, Specified};
use crate::proved::dw_section::{self, Changes};
use crate::section::addresses_of;
use crate::{Error, Result, UnwindExpression, error::no_memory};
use core::iter::FusedIterator;
use core::{fmt, mem, ops::RangeInclusive};
use smallvec::SmallVec;

/// A register by its DWARF number, which the ABI of each processor assigns.
#[derive(Clone, Copy, Debug, Default, PartialEq, Eq, PartialOrd, Ord, Hash)]
pub struct Register(pub u16);

impl fmt::Display for Register {
    fn fmt(&self, f: &mut fmt::Formatter<'_>) -> fmt::Result {
        write!(f, "r{}", self.0)
    }
}

/// How the canonical frame address (CFA) is found (DWARF 5, 6.4.2.2).
#[derive(Clone, Debug, PartialEq, Eq)]
pub enum CfaRule<'a> {
    /// A register plus an offset in bytes (`DW_CFA_def_cfa` and the like).
    RegisterAndOffset {
        /// The register.
        register: Register,
        /// The offset.
        offset: i64,
    },
    /// The value of an expression (`DW_CFA_def_cfa_expression`).
    Expression(UnwindExpression<'a>),
}

/// How a register of the caller is found (6.4.1, 6.4.2.3).
#[derive(Clone, Debug, Default, PartialEq, Eq)]
pub enum RegisterRule<'a> {
    /// No instruction says it: the ABI's default holds.
    #[default]
    Unspecified,
    /// It has no value that can be recovered (`DW_CFA_undefined`).
    Undefined,
    /// It has not been changed (`DW_CFA_same_value`).
    SameValue,
    /// It is saved in memory at the CFA plus an offset in bytes (`DW_CFA_offset`).
    Offset(i64),
    /// It is the CFA plus an offset in bytes (`DW_CFA_val_offset`).
    ValOffset(i64),
    /// It is in another register (`DW_CFA_register`).
    Register(Register),
    /// It is saved in memory at the address that an expression gives (`DW_CFA_expression`).
    Expression(UnwindExpression<'a>),
    /// It is the value of an expression (`DW_CFA_val_expression`).
    ValExpression(UnwindExpression<'a>),
}

impl<'a> RegisterRule<'a> {
    fn new(rule: RegRule<'a>) -> RegisterRule<'a> {
        match rule {
            RegRule::Unspecified => RegisterRule::Unspecified,
            RegRule::Undefined => RegisterRule::Undefined,
            RegRule::SameValue => RegisterRule::SameValue,
            RegRule::Offset(offset) => RegisterRule::Offset(offset),
            RegRule::ValOffset(offset) => RegisterRule::ValOffset(offset),
            RegRule::Register(register) => RegisterRule::Register(Register(register)),
            RegRule::Expression(block) => RegisterRule::Expression(UnwindExpression(block)),
            RegRule::ValExpression(block) => RegisterRule::ValExpression(UnwindExpression(block)),
        }
    }
}

/// The next register with its rule. Most rules are offsets, which are read the quicker way.
#[inline(always)]
fn next_rule<'a>(rules: &mut Specified<'_, 'a>) -> Option<(Register, RegisterRule<'a>)> {
    if let Some((register, offset)) = rules.next_offset() {
        return Some((Register(register), RegisterRule::Offset(offset)));
    }
    let (register, rule) = rules.next()?;
    Some((Register(register), RegisterRule::new(rule)))
}

/// The rules at an address: a row of the table of 6.4.1. Its expressions are borrowed from the
/// section, and compared by their operations. It takes no memory up to 8 registers.
///
/// ```
/// # const BYTES: &[u8] = include_bytes!("../tests/data/plain.bin");
/// use dwframe::{AddressSize, Endian, Register, RegisterRule, Section};
/// let index = Section::new(BYTES, AddressSize::Eight, Endian::Little).index()?;
/// let row = index.row_at(0x401002)?.expect("an FDE covers the address");
/// assert_eq!(row.fde, 0x401000..=0x40100f);
/// assert_eq!(*row.register(Register(6)), RegisterRule::Offset(-16));
/// assert_eq!(*row.register(row.return_register), RegisterRule::Offset(-8));
/// # Ok::<(), dwframe::Error>(())
/// ```
#[derive(Clone, Debug, PartialEq, Eq)]
#[must_use]
pub struct Row<'a> {
    /// The addresses of its FDE.
    pub fde: RangeInclusive<u64>,
    /// The register that holds the return address: `return_address_register` of the CIE.
    pub return_register: Register,
    /// How the CFA is found.
    pub cfa: CfaRule<'a>,
    registers: SmallVec<[(Register, RegisterRule<'a>); 8]>,
}

impl<'a> Row<'a> {
    /// A copy of a row. One of a section that was checked says how the CFA is found.
    #[inline(always)]
    pub(crate) fn new(row: &dw_row::Row<'a>, fde: dw_section::Fde) -> Result<Row<'a>> {
        let cfa = match row.cfa() {
            dw_row::CfaRule::Unset => return Err(Error::BadIndex),
            dw_row::CfaRule::Register { register, offset } => {
                CfaRule::RegisterAndOffset { register: Register(register), offset }
            }
            dw_row::CfaRule::Expression(block) => CfaRule::Expression(UnwindExpression(block)),
        };
        let mut registers = SmallVec::new();
        let mut rules = row.specified();
        while let Some(rule) = next_rule(&mut rules) {
            if registers.len() == registers.capacity() {
                registers.try_reserve(1).map_err(no_memory)?;
            }
            registers.push(rule);
        }
        let return_register = Register(fde.return_register);
        Ok(Row { fde: addresses_of(fde), return_register, cfa, registers })
    }

    /// How a register is found.
    pub fn register(&self, register: Register) -> &RegisterRule<'a> {
        let found = self.registers.binary_search_by_key(&register, |entry| entry.0);
        found.map_or(&RegisterRule::Unspecified, |place| &self.registers[place].1)
    }

    /// The registers that have a rule, ascending.
    pub fn registers(&self) -> &[(Register, RegisterRule<'a>)] {
        &self.registers
    }
}

/// An iterator over the rows of an [`Fde`](crate::Fde), each with the addresses that have it,
/// ascending. Neighbours differ. Where memory is refused, an error is the last item.
#[must_use]
pub struct Rows<'a> {
    changes: Changes<'a>,
    fde: dw_section::Fde,
    /// Where the next row begins, if there is one.
    begin: Result<Option<u128>>,
}

impl<'a> Rows<'a> {
    pub(crate) fn new(mut changes: Changes<'a>, fde: dw_section::Fde) -> Rows<'a> {
        let begin = changes.advance().map_err(no_memory);
        Rows { changes, fde, begin }
    }
}

impl<'a> Iterator for Rows<'a> {
    type Item = Result<(RangeInclusive<u64>, Row<'a>)>;

    fn next(&mut self) -> Option<Self::Item> {
        let begin = match mem::replace(&mut self.begin, Ok(None)) {
            Ok(begin) => begin?,
            Err(error) => return Some(Err(error)),
        };
        // What follows says where the row ends, and that is before it then.
        let Ok(next) = self.changes.advance() else { return Some(Err(Error::OutOfMemory)) };
        let row = if next.is_some() { self.changes.before() } else { self.changes.row() };
        // Both are addresses of the FDE.
        let addresses = begin as u64..=(next.unwrap_or(self.fde.end) - 1) as u64;
        match Row::new(row?, self.fde) {
            Ok(row) => {
                self.begin = Ok(next);
                Some(Ok((addresses, row)))
            }
            Err(error) => Some(Err(error)),
        }
    }
}

impl FusedIterator for Rows<'_> {}

impl fmt::Debug for Rows<'_> {
    fn fmt(&self, f: &mut fmt::Formatter<'_>) -> fmt::Result {
        f.debug_struct("Rows").field("begin", &self.begin).finish_non_exhaustive()
    }
}
