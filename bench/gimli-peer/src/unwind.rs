//! The caller's frame of a machine that stopped, by the rules at its pc. Registers that no rule
//! names are unchanged.

use crate::context::{Contexts, Task};
use crate::lookup::{at, by_begin};
use crate::machine::{slot_of, Machine, Slot};
use crate::section::{refused, Answer, Bytes, Fde, Section};
use gimli::{
    CfaRule, Endianity, Error, Register, RegisterRule, UnwindContext, UnwindContextStorage,
    UnwindTableRow,
};
use std::fmt::Write as _;
use std::io::Write;

/// Those of an expression.
const STEPS: u32 = 10_000;

/// A frame in the making. Its room is used again for the next one.
struct Unwinding<'m, M: Endianity> {
    machine: &'m Machine<M>,
    cfa: u64,
    return_register: Register,
    /// By number.
    registers: Vec<Slot>,
}

impl<M: Endianity> Unwinding<'_, M> {
    #[inline(always)]
    fn cfa<E: Endianity>(&self, rule: &CfaRule<Bytes<E>>) -> Answer<u64> {
        match rule {
            CfaRule::RegisterAndOffset { register, offset } => Ok(self
                .machine
                .address(self.machine.register(*register)?, *offset)),
            CfaRule::Expression(expression) => self.machine.value(expression, None, STEPS),
        }
    }

    /// What a rule gives a register, or None where it leaves it as it is.
    #[inline(always)]
    fn recovered<E: Endianity>(&self, rule: &RegisterRule<Bytes<E>>) -> Answer<Option<u64>> {
        let machine = self.machine;
        Ok(Some(match rule {
            // gimli keeps no register that is undefined.
            RegisterRule::Undefined | RegisterRule::SameValue => return Ok(None),
            RegisterRule::Offset(offset) => {
                machine.read(machine.address(self.cfa, *offset), machine.size)?
            }
            RegisterRule::ValOffset(offset) => machine.address(self.cfa, *offset),
            RegisterRule::Register(other) => machine.register(*other)?,
            RegisterRule::Expression(expression) => {
                let address = machine.value(expression, Some(self.cfa), STEPS)?;
                machine.read(address, machine.size)?
            }
            RegisterRule::ValExpression(expression) => {
                machine.value(expression, Some(self.cfa), STEPS)?
            }
            RegisterRule::Architectural => return Err("Architectural".into()),
        }))
    }

    #[inline(always)]
    fn recover<'a, E: Endianity, S: UnwindContextStorage<Bytes<'a, E>>>(
        &mut self,
        row: &UnwindTableRow<Bytes<'a, E>, S>,
    ) -> Answer<()> {
        self.cfa = self.cfa(row.cfa())?;
        self.registers.clear();
        self.registers.extend_from_slice(&self.machine.registers);
        list(&mut self.registers, self.return_register);
        for (register, rule) in row.registers() {
            match self.recovered(rule)? {
                Some(value) => *slot_of(&mut self.registers, register.0) = Slot::Value(value),
                None => list(&mut self.registers, *register),
            }
        }
        Ok(())
    }

    fn text(&self) -> String {
        let mut text = format!("cfa {:#x}\nra r{}\n", self.cfa, self.return_register.0);
        for (number, slot) in self.registers.iter().enumerate() {
            let _ = match slot {
                Slot::Unlisted => Ok(()),
                Slot::Undefined => writeln!(text, "r{number} undefined"),
                Slot::Value(value) => writeln!(text, "r{number} {value:#x}"),
            };
        }
        text
    }
}

/// A register stands in a frame, if only as one without a value.
#[inline(always)]
fn list(registers: &mut Vec<Slot>, register: Register) {
    let slot = slot_of(registers, register.0);
    if *slot == Slot::Unlisted {
        *slot = Slot::Undefined;
    }
}

impl<M: Endianity> Task for Unwinding<'_, M> {
    type Found = Answer<()>;

    #[inline(always)]
    fn run<'a, E: Endianity, S: UnwindContextStorage<Bytes<'a, E>>>(
        &mut self,
        section: &Section<'a, E>,
        fde: &Fde<'a, E>,
        context: &mut UnwindContext<Bytes<'a, E>, S>,
    ) -> Result<Answer<()>, Error> {
        let (frame, bases, pc) = (&section.frame, &section.bases, self.machine.pc);
        let row = fde.unwind_info_for_address(frame, bases, context, pc)?;
        self.return_register = fde.cie().return_address_register();
        Ok(self.recover(row))
    }
}

/// Unwinds the frame so many times over, and prints it. Those of no unwinding are the cost of the
/// list and the dump.
pub fn print<E: Endianity, M: Endianity>(
    section: &Section<E>,
    machine: &Machine<M>,
    count: u64,
    out: &mut impl Write,
) -> Answer<()> {
    let fdes = by_begin(section)?;
    let mut contexts = Contexts::new(section);
    let mut unwinding = Unwinding {
        machine,
        cfa: 0,
        return_register: Register(0),
        registers: Vec::new(),
    };
    for _ in 0..count {
        let fde = at(&fdes, machine.pc).ok_or("NoFde")?;
        contexts.run(&mut unwinding, fde).map_err(refused)??;
    }
    let text = if count > 0 {
        unwinding.text()
    } else {
        String::new()
    };
    out.write_all(text.as_bytes())
        .map_err(|error| error.to_string())
}
