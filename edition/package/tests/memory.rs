//! Requests for memory that are refused, each once: the call answers that, and nothing else.

mod sections;

use dwframe::{
    AddressSize, Endian, Environment, Error, Expression, Memory, MemoryError, Register, Registers,
    Result, Section, UnwindOptions,
};
use sections::section;
use std::alloc::{GlobalAlloc, Layout, System};
use std::cell::Cell;

thread_local! {
    /// How many requests of this thread are granted before one is refused.
    static GRANTED: Cell<usize> = const { Cell::new(usize::MAX) };
}

/// Counts a request down, and says whether it is refused.
fn refuses() -> bool {
    let granted = GRANTED.get();
    GRANTED.set(granted.wrapping_sub(usize::from(granted != usize::MAX)));
    granted == 0
}

struct Refusing;

// SAFETY: what is not refused is the system's.
unsafe impl GlobalAlloc for Refusing {
    unsafe fn alloc(&self, layout: Layout) -> *mut u8 {
        if refuses() { std::ptr::null_mut() } else { unsafe { System.alloc(layout) } }
    }

    unsafe fn realloc(&self, pointer: *mut u8, layout: Layout, size: usize) -> *mut u8 {
        if refuses() {
            std::ptr::null_mut()
        } else {
            unsafe { System.realloc(pointer, layout, size) }
        }
    }

    unsafe fn dealloc(&self, pointer: *mut u8, layout: Layout) {
        unsafe { System.dealloc(pointer, layout) }
    }
}

#[global_allocator]
static REFUSING: Refusing = Refusing;

/// Refuses each request of a call once, and answers how many it makes.
fn refuse_each<T: PartialEq + std::fmt::Debug>(call: impl Fn() -> Result<T>) -> usize {
    let wanted = call();
    assert!(wanted.is_ok(), "{wanted:?}");
    for granted in 0.. {
        GRANTED.set(granted);
        let found = call();
        let was_refused = GRANTED.replace(usize::MAX) == usize::MAX;
        if !was_refused {
            assert_eq!(found, wanted);
            return granted;
        }
        assert!(found == wanted || found == Err(Error::OutOfMemory), "{granted}: {found:?}");
    }
    unreachable!()
}

fn of(bytes: &[u8]) -> Section<'_> {
    Section::new(bytes, AddressSize::Eight, Endian::Little)
}

/// Rules for registers above 127, for more than 16 of them, and by expressions; states that are
/// remembered one above the other.
fn demanding() -> Vec<u8> {
    let many: String = (64..96).map(|register| format!("05{register:02x}01")).collect();
    let rules = format!("{many} 05ac0202 05ad0203 1605022301 0a 0a 0a 0a 0a 0a 410e10 0b 0b 44 0b");
    section(&format!("cie; plain; fde 1000 100 {rules}; fde 2000 10 0f03770806"))
}

#[test]
fn of_a_section() {
    let bytes = demanding();
    let normal = of(&bytes).normalize().expect("memory");
    assert!(refuse_each(|| of(&bytes).check().map(|table| table.counts())) > 0);
    assert!(refuse_each(|| of(&bytes).index().map(|index| index.entries().len())) > 2);
    assert!(refuse_each(|| of(&bytes).normalize()) > 10);
    assert!(refuse_each(|| of(&bytes).means_the_same(&normal)) > 10);
}

#[test]
fn of_rows() {
    let bytes = demanding();
    let table = of(&bytes).check().expect("memory");
    let count = || {
        let rows = table.fdes().flat_map(|fde| fde.rows());
        rows.map(|row| row.map(|(_, row)| row.registers().len()))
            .try_fold(0, |sum, row| Ok(sum + row?))
    };
    assert!(refuse_each(count) > 2);
    let mut rows = table.fde_at(0x1000).expect("an FDE covers the address").rows();
    GRANTED.set(0);
    let refused = rows.find(|row| row.is_err());
    GRANTED.set(usize::MAX);
    assert!(matches!(refused, Some(Err(Error::OutOfMemory))));
    assert!(rows.next().is_none(), "the error is the last item");
}

#[test]
fn of_look_ups_and_frames() {
    let bytes = demanding();
    let index = of(&bytes).index().expect("memory");
    let registers =
        Registers::from_values([(Register(6), 0x2000), (Register(7), 0x2000)]).expect("memory");
    let unwind = |pc| {
        let mut memory = |_: u64, buffer: &mut [u8]| -> Result<(), MemoryError> {
            buffer.fill(1);
            Ok(())
        };
        let frame = index.unwind(
            pc,
            &registers,
            &mut memory as &mut dyn Memory,
            UnwindOptions::default(),
        )?;
        frame
            .expect("an FDE covers the address")
            .caller(Register(7))
            .map(|caller| caller.get(Register(7)))
    };
    // A plain FDE takes no memory at all.
    assert_eq!(refuse_each(|| index.row_at(0x401004)), 0);
    assert_eq!(refuse_each(|| unwind(0x401004)), 0);
    assert!(refuse_each(|| index.row_at(0x1004)) > 1);
    assert!(refuse_each(|| unwind(0x1004)) > 2);
    assert!(refuse_each(|| unwind(0x2000)) > 0);
}

#[test]
fn of_registers_and_expressions() {
    assert_eq!(refuse_each(|| Registers::from_values([(Register(127), 1)]).map(|_| ())), 0);
    assert_eq!(refuse_each(|| Registers::from_values([(Register(128), 1)]).map(|_| ())), 1);
    let block = [[0x31; 100].as_slice(), &[0x22; 99]].concat();
    let parse = || Expression::parse(&block, AddressSize::Eight, Endian::Little);
    assert!(refuse_each(|| parse().map(|parsed| parsed.operations().len())) > 0);
    let (parsed, registers) = (parse().expect("memory"), Registers::default());
    let mut memory = |_: u64, _: &mut [u8]| Err(MemoryError::Unreadable);
    assert!(refuse_each(|| parsed.to_bytes()) > 0);
    let value = parsed.evaluate(&Environment::new(&registers), &mut memory);
    assert_eq!(value, Ok(100));
    let evaluate = || {
        let mut memory = |_: u64, _: &mut [u8]| Err(MemoryError::Unreadable);
        parsed.evaluate(&Environment::new(&registers), &mut memory)
    };
    assert!(refuse_each(evaluate) > 0);
}
