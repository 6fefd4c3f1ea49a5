//! Why a call has no answer.

use crate::proved::dw_eval::EvalError;
use crate::proved::dw_section::LookUpError;
use crate::proved::dw_unwind::UnwindAtError;
use crate::{FaultKind, FrameError, Refusal};
use core::fmt;

/// An answer, or why there is none.
pub type Result<T, E = Error> = core::result::Result<T, E>;

/// Why a call has no answer.
///
/// ```
/// use dwframe::{AddressSize, Endian, Error, Refusal, RefusalCode, Section};
/// let cut = Section::new(&[0x14, 0, 0, 0], AddressSize::Eight, Endian::Little);
/// let error = cut.check().unwrap_err();
/// assert_eq!(error.to_string(), "refused: EntryPastEnd at 0x0");
/// let code = RefusalCode::EntryPastEnd;
/// assert_eq!(error, Error::Refused(Refusal { code, at: 0 }));
/// assert_eq!((code.number(), code.name()), (3, "EntryPastEnd"));
/// ```
#[derive(Clone, Copy, Debug, PartialEq, Eq)]
#[non_exhaustive]
pub enum Error {
    /// The section or the block is refused: its first fault, and the byte that has it.
    Refused(Refusal),
    /// The other section of a comparison is refused.
    OtherRefused(Refusal),
    /// No FDE that covers the address stands where the index says, or its CFA has no rule.
    BadIndex,
    /// An expression has no value (DWARF 5, 2.5): what is wrong, and at which operation from 0 on.
    Expression(FaultKind, usize),
    /// The caller has no frame: an expression has no value, or memory or a register is missing.
    Frame(FrameError),
    /// A request for memory was refused.
    OutOfMemory,
}

impl fmt::Display for Error {
    fn fmt(&self, f: &mut fmt::Formatter<'_>) -> fmt::Result {
        match self {
            Error::Refused(Refusal { code, at }) => write!(f, "refused: {code} at {at:#x}"),
            Error::OtherRefused(Refusal { code, at }) => {
                write!(f, "refused: {code} at {at:#x} in second")
            }
            Error::BadIndex => write!(f, "the index is not that of the section"),
            Error::Expression(kind, operation) => write!(f, "fault: {kind} at {operation}"),
            Error::Frame(FrameError::Eval { kind, index, column }) => {
                write!(f, "fault: {kind} at {index} in {column}")
            }
            Error::Frame(FrameError::Unreadable { column, .. }) => {
                write!(f, "fault: Unreadable in {column}")
            }
            Error::Frame(FrameError::Device { column }) => write!(f, "fault: Device in {column}"),
            Error::Frame(FrameError::NoRegister { column, .. }) => {
                write!(f, "fault: NoRegister in {column}")
            }
            Error::Frame(FrameError::NoFde) => write!(f, "fault: NoFde"),
            Error::OutOfMemory | Error::Frame(FrameError::OutOfMemory) => {
                write!(f, "out of memory")
            }
        }
    }
}

impl core::error::Error for Error {}

pub(crate) fn no_memory<E>(_error: E) -> Error {
    Error::OutOfMemory
}

pub(crate) fn refused(error: impl Into<LookUpError>) -> Error {
    match error.into() {
        LookUpError::BadIndex => Error::BadIndex,
        LookUpError::Refused(refusal) => Error::Refused(refusal),
        LookUpError::OutOfMemory => Error::OutOfMemory,
    }
}

pub(crate) fn no_value(error: EvalError) -> Error {
    match error {
        EvalError::Fault { kind, index } => Error::Expression(kind, index),
        EvalError::OutOfMemory => Error::OutOfMemory,
    }
}

/// Why there is no frame: no FDE covers the address, or an error.
pub(crate) fn no_frame<T>(error: UnwindAtError) -> Result<Option<T>> {
    match error {
        UnwindAtError::BadIndex => Err(Error::BadIndex),
        UnwindAtError::Refused(refusal) => Err(Error::Refused(refusal)),
        UnwindAtError::Unwind(FrameError::NoFde) => Ok(None),
        UnwindAtError::Unwind(FrameError::OutOfMemory) => Err(Error::OutOfMemory),
        UnwindAtError::Unwind(error) => Err(Error::Frame(error)),
    }
}
