//! What an UnwindTable works in: a small context, and one of gimli 0.27's bounds where a program
//! does not fit into it. gimli moves a whole row for each FDE and each remembered state, and room
//! for 192 rules makes that dear.

use crate::section::{Bytes, Fde, Section};
use gimli::{
    DebugFrame, DebugFrameOffset, Endianity, Error, Reader, Register, RegisterRule, RunTimeEndian,
    UnwindContext, UnwindContextStorage, UnwindSection, UnwindTableRow,
};

#[derive(Clone, Debug, PartialEq, Eq)]
pub struct Small;
#[derive(Clone, Debug, PartialEq, Eq)]
pub struct Large;

// Rules of most rows.
const FEW: usize = 16;

impl<T: Reader> UnwindContextStorage<T> for Small {
    type Rules = [(Register, RegisterRule<T>); FEW];
    type Stack = [UnwindTableRow<T, Self>; 3];
}

impl<T: Reader> UnwindContextStorage<T> for Large {
    type Rules = [(Register, RegisterRule<T>); 192];
    type Stack = Vec<UnwindTableRow<T, Self>>;
}

/// Something that is done over the rows of an FDE, again from its begin where the first context is
/// too small.
pub trait Task {
    type Found;
    fn run<'a, E: Endianity, S: UnwindContextStorage<Bytes<'a, E>>>(
        &mut self,
        section: &Section<'a, E>,
        fde: &Fde<'a, E>,
        context: &mut UnwindContext<Bytes<'a, E>, S>,
    ) -> Result<Self::Found, Error>;
}

pub struct Contexts<'s, 'a, E: Endianity> {
    section: &'s Section<'a, E>,
    small: Box<UnwindContext<Bytes<'a, E>, Small>>,
    large: Option<Box<UnwindContext<Bytes<'a, RunTimeEndian>, Large>>>,
}

impl<'s, 'a, E: Endianity> Contexts<'s, 'a, E> {
    pub fn new(section: &'s Section<'a, E>) -> Self {
        Contexts {
            section,
            small: Box::new(UnwindContext::new_in()),
            large: None,
        }
    }

    #[inline(always)]
    pub fn run<W: Task>(&mut self, task: &mut W, fde: &Fde<'a, E>) -> Result<W::Found, Error> {
        match task.run(self.section, fde, &mut self.small) {
            Err(Error::TooManyRegisterRules | Error::StackFull) => self.run_large(task, fde),
            done => done,
        }
    }

    #[cold]
    #[inline(never)]
    fn run_large<W: Task>(&mut self, task: &mut W, fde: &Fde<'a, E>) -> Result<W::Found, Error> {
        let section = self.section.of_any_order();
        let place = DebugFrameOffset(fde.offset());
        let fde =
            section
                .frame
                .fde_from_offset(&section.bases, place, DebugFrame::cie_from_offset)?;
        let large = self
            .large
            .get_or_insert_with(|| Box::new(UnwindContext::new_in()));
        task.run(&section, &fde, large)
    }
}
