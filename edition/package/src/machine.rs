//! Machines that stopped: memory, registers, frames of callers, and values of expressions.

use crate::error::{no_memory, no_value, refused};
use crate::proved::dw_eval::{self, Env, ReadFault};
use crate::proved::dw_num::{Order, Target, number_of};
use crate::proved::dw_op::{self, ExprRef, OpList, Profile};
use crate::proved::{dw_frame, support::alloc::Global};
use crate::{AddressSize, DefaultRule, Endian, MemoryError, Operation, Register, Result};
use alloc::vec::Vec;
use core::{fmt, iter::FusedIterator};
use smallvec::SmallVec;

/// The memory of a machine: a [`Window`], or a closure.
///
/// ```
/// use dwframe::{Memory, Window};
/// let mut stack = Window { address: 0x7ffe00, bytes: &[0x88, 0x12, 0x40, 0] };
/// let mut heap = Window { address: 0x10000, bytes: &[1; 16] };
/// let mut both = |address: u64, buffer: &mut [u8]| {
///     stack.read(address, buffer).or_else(|_| heap.read(address, buffer))
/// };
/// assert_eq!(both.read(0x10008, &mut [0; 8]), Ok(()));
/// ```
pub trait Memory {
    /// Fills a buffer of 1 to 8 bytes with those from an address on.
    ///
    /// # Errors
    /// `Unreadable` where a byte is missing, and `Device` where the read failed.
    fn read(&mut self, address: u64, buffer: &mut [u8]) -> Result<(), MemoryError>;
}

impl<F: FnMut(u64, &mut [u8]) -> Result<(), MemoryError>> Memory for F {
    fn read(&mut self, address: u64, buffer: &mut [u8]) -> Result<(), MemoryError> {
        self(address, buffer)
    }
}

/// Bytes of memory from an address on.
#[derive(Clone, Copy, Debug, Default, PartialEq, Eq)]
pub struct Window<'m> {
    /// The address of the first byte.
    pub address: u64,
    /// The bytes.
    pub bytes: &'m [u8],
}

impl Memory for Window<'_> {
    fn read(&mut self, address: u64, buffer: &mut [u8]) -> Result<(), MemoryError> {
        let place = address.checked_sub(self.address).and_then(|place| place.try_into().ok());
        let found = place.and_then(|place: usize| self.bytes.get(place..)?.get(..buffer.len()));
        buffer.copy_from_slice(found.ok_or(MemoryError::Unreadable)?);
        Ok(())
    }
}

/// A memory as expressions and frames read it.
pub(crate) struct Reader<'m, M: ?Sized>(pub(crate) &'m mut M);

impl<M: Memory + ?Sized> dw_eval::Memory for Reader<'_, M> {
    fn read(&mut self, address: u64, len: usize, order: Order) -> Result<u64, ReadFault> {
        let mut buffer = [0; 8];
        let bytes = &mut buffer[..len];
        self.0.read(address, bytes)?;
        Ok(number_of(order, bytes))
    }
}

/// The values of registers, at first of none. Those below 128 take no memory.
///
/// ```
/// use dwframe::{Register, Registers};
/// let mut registers = Registers::default();
/// registers.set(Register(7), 0x7ffdf0)?;
/// assert_eq!(registers.get(Register(7)), Some(0x7ffdf0));
/// # Ok::<(), dwframe::Error>(())
/// ```
#[must_use]
pub struct Registers(pub(crate) dw_eval::Registers);

impl Registers {
    /// These registers have these values; of one that is given twice the last counts.
    ///
    /// # Errors
    /// [`Error::OutOfMemory`](crate::Error), by a register from 128 on.
    pub fn from_values(values: impl IntoIterator<Item = (Register, u64)>) -> Result<Registers> {
        let mut registers = Registers::default();
        values.into_iter().try_for_each(|(own, value)| registers.set(own, value))?;
        Ok(registers)
    }

    /// The value of a register, where it has one.
    pub fn get(&self, register: Register) -> Option<u64> {
        self.0.get(register.0)
    }

    /// Gives a register a value.
    ///
    /// # Errors
    /// [`Error::OutOfMemory`](crate::Error), by a register from 128 on. Then all stay.
    pub fn set(&mut self, register: Register, value: u64) -> Result<()> {
        self.0.set(register.0, value).map_err(no_memory)
    }
}

impl Default for Registers {
    fn default() -> Registers {
        Registers(dw_eval::Registers::new(Global))
    }
}

impl fmt::Debug for Registers {
    fn fmt(&self, f: &mut fmt::Formatter<'_>) -> fmt::Result {
        let all = (0..=u16::MAX).map(Register);
        f.debug_map().entries(all.filter_map(|own| Some((own, self.get(own)?)))).finish()
    }
}

/// How a frame is unwound.
#[derive(Clone, Copy, Debug, PartialEq, Eq)]
pub struct UnwindOptions {
    /// What a register without a rule is taken as, as the ABI says: `SameValue` at first.
    pub default_rule: DefaultRule,
    /// How many operations each expression may execute: at first 10,000.
    pub step_limit: u64,
}

impl Default for UnwindOptions {
    fn default() -> UnwindOptions {
        UnwindOptions { default_rule: DefaultRule::SameValue, step_limit: 10_000 }
    }
}

/// The frame of a caller (DWARF 5, 6.4.4): its registers at the call. It takes no memory up to 36.
///
/// ```
/// # const BYTES: &[u8] = include_bytes!("../tests/data/plain.bin");
/// use dwframe::{AddressSize, Endian, Register, Registers, Section, UnwindOptions, Window};
/// let index = Section::new(BYTES, AddressSize::Eight, Endian::Little).index()?;
/// let registers = Registers::from_values([(Register(6), 0x7ffe00), (Register(7), 0x7ffdf0)])?;
/// let stack = [0, 2, 0, 0, 0, 0, 0, 0, 0x88, 0x12, 0x40, 0, 0, 0, 0, 0];
/// let mut memory = Window { address: 0x7ffe00, bytes: &stack };
/// let frame = index.unwind(0x401004, &registers, &mut memory, UnwindOptions::default())?;
/// let frame = frame.expect("an FDE covers the address");
/// assert_eq!((frame.cfa, frame.return_address()), (0x7ffe10, Some(0x401288)));
/// // On x86-64 register 7 is the stack pointer.
/// assert_eq!(frame.caller(Register(7))?.get(Register(7)), Some(0x7ffe10));
/// # Ok::<(), dwframe::Error>(())
/// ```
#[derive(Clone, Debug, PartialEq, Eq)]
#[must_use]
pub struct Frame {
    /// The canonical frame address.
    pub cfa: u64,
    /// The register that holds the return address: `return_address_register` of the CIE.
    pub return_register: Register,
    registers: SmallVec<[(Register, Option<u64>); 36]>,
}

impl Frame {
    pub(crate) fn new(frame: &dw_frame::Frame<'_>) -> Result<Frame> {
        let values = frame.registers.values();
        let mut registers = SmallVec::new();
        registers.try_reserve(values.len()).map_err(no_memory)?;
        registers.extend(values.iter().map(|&(register, value)| (Register(register), value)));
        let return_register = Register(frame.return_register);
        Ok(Frame { cfa: frame.cfa, return_register, registers })
    }

    /// The registers that the machine gave, that the row specifies, and that of the return address,
    /// ascending; with none where a value cannot be recovered.
    pub fn registers(&self) -> &[(Register, Option<u64>)] {
        &self.registers
    }

    /// The value of a register, where it can be recovered.
    pub fn register(&self, register: Register) -> Option<u64> {
        let place = self.registers.binary_search_by_key(&register, |entry| entry.0);
        self.registers[place.ok()?].1
    }

    /// The return address. The outermost frame may have none.
    pub fn return_address(&self) -> Option<u64> {
        self.register(self.return_register)
    }

    /// The registers to go on with: those that are recovered, and as the stack pointer the CFA, as
    /// the ABIs of most processors have it.
    ///
    /// # Errors
    /// [`Error::OutOfMemory`](crate::Error), by a register from 128 on.
    pub fn caller(&self, stack_pointer: Register) -> Result<Registers> {
        let recovered = self.registers.iter().filter_map(|&(own, value)| Some((own, value?)));
        Registers::from_values(recovered.chain([(stack_pointer, self.cfa)]))
    }
}

/// The expression of a rule (DWARF 5, 6.4.2). Two are equal if their operations are.
///
/// ```
/// # const BYTES: &[u8] = include_bytes!("../tests/data/rules.bin");
/// # use dwframe::{AddressSize, Endian, Operation, Register, RegisterRule, Section};
/// let index = Section::new(BYTES, AddressSize::Eight, Endian::Little).index()?;
/// let row = index.row_at(0x1000)?.expect("an FDE covers the address");
/// let RegisterRule::ValExpression(expression) = row.register(Register(5)) else { panic!() };
/// assert!(expression.operations().eq([Operation::PlusUconst(1)]));
/// # Ok::<(), dwframe::Error>(())
/// ```
#[derive(Debug, PartialEq, Eq, Hash)]
pub struct UnwindExpression<'a>(pub(crate) ExprRef<'a>);

impl<'a> UnwindExpression<'a> {
    /// Its operations. Takes no memory.
    pub fn operations(&self) -> impl FusedIterator<Item = Operation<'a>> + use<'a> {
        self.0.steps().fuse()
    }

    /// The expression by itself. That of a register begins with the CFA ([`Environment::initial`]).
    ///
    /// # Errors
    /// [`Error::OutOfMemory`](crate::Error).
    pub fn decode(&self) -> Result<Expression<'a>> {
        self.0.ops(Global).map(Expression).map_err(no_memory)
    }
}

impl Clone for UnwindExpression<'_> {
    fn clone(&self) -> Self {
        UnwindExpression(self.0.copied())
    }
}

/// A DWARF expression (DWARF 5, 2.5): a list of operations.
///
/// ```
/// use dwframe::{AddressSize, Endian, Environment, Expression, Registers, Window};
/// // DW_OP_lit2, DW_OP_lit3, DW_OP_mul.
/// let expression = Expression::parse(&[0x32, 0x33, 0x1e], AddressSize::Eight, Endian::Little)?;
/// let registers = Registers::default();
/// let value = expression.evaluate(&Environment::new(&registers), &mut Window::default())?;
/// assert_eq!(value, 6);
/// # Ok::<(), dwframe::Error>(())
/// ```
#[must_use]
pub struct Expression<'a>(OpList<'a>);

impl<'a> Expression<'a> {
    /// The operations of a block (7.7.1), such as the value of `DW_AT_frame_base`.
    ///
    /// # Errors
    /// [`Error::Refused`](crate::Error) with the first fault and its place in the block, or
    /// `OutOfMemory`.
    pub fn parse(block: &'a [u8], address_size: AddressSize, endian: Endian) -> Result<Self> {
        let target = Target { size: address_size, order: endian };
        dw_op::decode(Global, block, target, Profile::Location).map(Expression).map_err(refused)
    }

    /// Its operations.
    pub fn operations(&self) -> &[Operation<'a>] {
        self.0.ops()
    }

    /// The shortest block that has these operations.
    ///
    /// # Errors
    /// [`Error::OutOfMemory`](crate::Error).
    pub fn to_bytes(&self) -> Result<Vec<u8>> {
        // No branch is too far: a block has these operations already.
        dw_op::encode(Global, &self.0).map(|block| block.into_std()).map_err(no_memory)
    }

    /// The value of the expression: what is on top of the stack at its end.
    ///
    /// # Errors
    /// [`Error::Expression`](crate::Error) where it has none, or `OutOfMemory`.
    pub fn evaluate(
        &self,
        environment: &Environment<'_>,
        memory: &mut (impl Memory + ?Sized),
    ) -> Result<u64> {
        let Environment { registers, initial, frame_base, cfa, object, step_limit } = *environment;
        let (target, registers, memory) = (self.0.target(), &registers.0, &mut Reader(memory));
        let env = Env { target, registers, frame_base, cfa, object };
        dw_eval::evaluate(Global, &self.0, initial, &env, memory, step_limit).map_err(no_value)
    }
}

impl fmt::Debug for Expression<'_> {
    fn fmt(&self, f: &mut fmt::Formatter<'_>) -> fmt::Result {
        f.debug_list().entries(self.operations()).finish()
    }
}

/// What an expression may ask for beside memory (2.5.1).
#[derive(Clone, Copy, Debug)]
pub struct Environment<'m> {
    /// The values of registers.
    pub registers: &'m Registers,
    /// What the stack begins with.
    pub initial: Option<u64>,
    /// The frame base, which `DW_OP_fbreg` asks for.
    pub frame_base: Option<u64>,
    /// The canonical frame address, which `DW_OP_call_frame_cfa` asks for.
    pub cfa: Option<u64>,
    /// What `DW_OP_push_object_address` asks for.
    pub object: Option<u64>,
    /// How many operations may be executed.
    pub step_limit: u64,
}

impl<'m> Environment<'m> {
    /// These registers, 10,000 steps, and nothing else.
    pub fn new(registers: &'m Registers) -> Environment<'m> {
        let (initial, frame_base, cfa, object) = (None, None, None, None);
        Environment { registers, initial, frame_base, cfa, object, step_limit: 10_000 }
    }
}
