#![doc = include_str!("../README.md")]
#![cfg_attr(not(feature = "std"), no_std)]
#![forbid(unsafe_code)]
#![warn(missing_docs)]

extern crate alloc;
// Version 1 of thiserror names `std` for what `core` has too.
#[cfg(not(feature = "std"))]
extern crate core as std;

mod error;
mod machine;
mod row;
mod section;

pub mod proved;

pub use error::{Error, Result};
pub use machine::{Environment, Expression, Frame, Memory, Registers};
pub use machine::{UnwindExpression, UnwindOptions, Window};
#[doc(inline)]
pub use proved::{
    dw_eval::{Kind as FaultKind, Policy as DefaultRule, ReadFault as MemoryError},
    dw_frame::{Column, UnwindError as FrameError},
    dw_num::{Code as RefusalCode, Order as Endian, Refusal, Size as AddressSize},
    dw_op::Op as Operation,
    dw_section::{EntryCounts as Counts, Ranged as IndexEntry},
};
pub use row::{CfaRule, Register, RegisterRule, Row, Rows};
pub use section::{Fde, Index, Section, Table};
