//! Sections, tables of those that are well formed, and indexes.

use crate::error::{no_frame, no_memory, refused};
use crate::machine::Reader;
use crate::proved::dw_cfa::RowRoom;
use crate::proved::dw_normal::{self, SameError, Which};
use crate::proved::dw_num::Target;
use crate::proved::dw_section::{self, FdeRef};
use crate::proved::dw_unwind::{self, FrameRoom};
use crate::proved::support::alloc::Global;
use crate::{AddressSize, Counts, Endian, Error, Frame, IndexEntry, Memory, Register, Registers};
use crate::{Result, Row, Rows, UnwindOptions};
use alloc::{borrow::Cow, vec::Vec};
use core::iter::FusedIterator;
use core::{fmt, ops::RangeInclusive};

/// The bytes of a section `.debug_frame` (DWARF 5, 6.4.1), and how its numbers are read.
///
/// ```
/// # const BYTES: &[u8] = include_bytes!("../tests/data/scrambled.bin");
/// use dwframe::{AddressSize, Endian, Section};
/// let section = Section::new(BYTES, AddressSize::Eight, Endian::Little);
/// let counts = section.check()?.counts();
/// assert_eq!((counts.cies, counts.fdes), (1, 1));
/// let normal = section.normalize()?;
/// assert!(section.means_the_same(&normal)?);
/// # Ok::<(), dwframe::Error>(())
/// ```
#[derive(Clone, Copy, PartialEq, Eq)]
#[must_use]
pub struct Section<'a> {
    /// The raw section.
    pub bytes: &'a [u8],
    /// The size of an address, which a CIE of version 4 says again.
    pub address_size: AddressSize,
    /// The order of the bytes of a number.
    pub endian: Endian,
}

impl<'a> Section<'a> {
    /// The section of these bytes.
    pub const fn new(bytes: &'a [u8], address_size: AddressSize, endian: Endian) -> Section<'a> {
        Section { bytes, address_size, endian }
    }

    fn target(&self) -> Target {
        Target { size: self.address_size, order: self.endian }
    }

    /// Judges the whole section: each field, each instruction and each operation.
    ///
    /// # Errors
    /// [`Error::Refused`] with the first fault, or [`Error::OutOfMemory`].
    pub fn check(self) -> Result<Table<'a>> {
        dw_section::check(Global, self.bytes, self.target()).map(Table).map_err(refused)
    }

    /// The index of the section, which is judged whole.
    ///
    /// # Errors
    /// Those of [`check`](Section::check).
    pub fn index(self) -> Result<Index<'a>> {
        let table = self.check()?;
        let mut entries = Vec::new();
        entries.try_reserve_exact(table.0.fde_count()).map_err(no_memory)?;
        entries.extend_from_slice(table.0.index());
        Ok(Index::new(self, entries))
    }

    /// The normal form of the section: that of all sections with the same meaning, byte for byte.
    ///
    /// # Errors
    /// Those of [`check`](Section::check); and `NormalTooLong` above 2,147,483,647 bytes.
    pub fn normalize(self) -> Result<Vec<u8>> {
        let normal = dw_normal::normalise(Global, self.bytes, self.target(), 0x7fff_ffff);
        Ok(normal.map_err(refused)?.into_std())
    }

    /// Whether another section for the machine has the same nonempty FDEs with the same return
    /// address registers, and the same rules at each address.
    ///
    /// # Errors
    /// Those of [`normalize`](Section::normalize), and [`Error::OtherRefused`] for the other one.
    pub fn means_the_same(self, other: &[u8]) -> Result<bool> {
        let same = dw_normal::same(Global, self.bytes, other, self.target());
        same.map_err(|error| match error {
            SameError::Refused(Which::First, refusal) => Error::Refused(refusal),
            SameError::Refused(Which::Second, refusal) => Error::OtherRefused(refusal),
            SameError::OutOfMemory => Error::OutOfMemory,
        })
    }
}

// The bytes are counted, and not printed.
impl fmt::Debug for Section<'_> {
    fn fmt(&self, f: &mut fmt::Formatter<'_>) -> fmt::Result {
        let Section { bytes, address_size, endian } = self;
        write!(f, "Section({} bytes, {address_size:?}, {endian:?})", bytes.len())
    }
}

/// A section that was checked: its nonempty FDEs, ascending by address, and their rows.
///
/// ```
/// # const BYTES: &[u8] = include_bytes!("../tests/data/plain.bin");
/// use dwframe::{AddressSize, Endian, Section};
/// let table = Section::new(BYTES, AddressSize::Eight, Endian::Little).check()?;
/// for row in table.fdes().flat_map(|fde| fde.rows()) {
///     let (addresses, row) = row?;
///     println!("{:#x}: {:?}", addresses.start(), row.cfa);
/// }
/// # Ok::<(), dwframe::Error>(())
/// ```
#[must_use]
pub struct Table<'a>(dw_section::Table<'a>);

impl<'a> Table<'a> {
    /// The section.
    pub fn section(&self) -> Section<'a> {
        Section::new(self.0.bytes(), self.0.target().size, self.0.target().order)
    }

    /// How many CIEs and FDEs the section has, empty FDEs among them.
    pub fn counts(&self) -> Counts {
        self.0.counts()
    }

    /// The nonempty FDEs, ascending by address.
    pub fn fdes(&self) -> impl ExactSizeIterator<Item = Fde<'_, 'a>> + FusedIterator {
        (0..self.0.fde_count()).map(|place| self.fde(FdeRef { place }))
    }

    /// The FDE that covers an address, found by halving.
    pub fn fde_at(&self, address: u64) -> Option<Fde<'_, 'a>> {
        self.0.fde_at(address).map(|place| self.fde(place))
    }

    fn fde(&self, place: FdeRef) -> Fde<'_, 'a> {
        Fde { table: self, place, fde: self.0.fde(place) }
    }

    /// The index of the section, for look-ups and frames. It takes no memory.
    pub fn index(&self) -> Index<'_> {
        Index::new(self.section(), self.0.index())
    }
}

impl fmt::Debug for Table<'_> {
    fn fmt(&self, f: &mut fmt::Formatter<'_>) -> fmt::Result {
        write!(f, "Table({:?}, {:?})", self.section(), self.counts())
    }
}

/// A nonempty FDE of a [`Table`] (6.4.1).
#[derive(Clone, Copy, Debug)]
#[must_use]
pub struct Fde<'t, 'a> {
    table: &'t Table<'a>,
    place: FdeRef,
    fde: dw_section::Fde,
}

impl<'a> Fde<'_, 'a> {
    /// Its addresses: as many as `address_range` says, from `initial_location` on.
    pub fn addresses(&self) -> RangeInclusive<u64> {
        addresses_of(self.fde)
    }

    /// The register that holds the return address: `return_address_register` of the CIE.
    pub fn return_register(&self) -> Register {
        Register(self.fde.return_register)
    }

    /// Its rows, ascending by address, by one run of its program.
    pub fn rows(&self) -> Rows<'a> {
        Rows::new(self.table.0.changes(self.place), self.fde)
    }
}

/// The addresses of a nonempty FDE, whose end may be 2^64.
pub(crate) fn addresses_of(fde: dw_section::Fde) -> RangeInclusive<u64> {
    fde.begin..=(fde.end - 1) as u64
}

/// A section with the list of its nonempty FDEs, ascending by address, for look-ups and frames.
///
/// A look-up judges the FDE and the CIE that it reads, and nothing else. The list may be kept, in a
/// file too, and need not be trusted: **a list of other bytes does no harm**. The answer is then
/// [`Error::BadIndex`], a refusal, or what stands where the list leads.
///
/// ```
/// # const BYTES: &[u8] = include_bytes!("../tests/data/plain.bin");
/// use dwframe::{AddressSize, Endian, Index, IndexEntry, Section};
/// let section = Section::new(BYTES, AddressSize::Eight, Endian::Little);
/// let entries = [IndexEntry { begin: 0x401000, range: 0x10, at: 0x18, return_register: 16 }];
/// assert_eq!(section.index()?.entries(), &entries);
/// let index = Index::new(section, &entries);
/// assert!(index.row_at(0x401004)?.is_some());
/// assert!(index.row_at(0x401010)?.is_none());
/// # Ok::<(), dwframe::Error>(())
/// ```
#[must_use]
pub struct Index<'a> {
    section: Section<'a>,
    entries: Cow<'a, [IndexEntry]>,
}

impl<'a> Index<'a> {
    /// The index with a list that was kept, a slice or a `Vec`. [`Section::index`] makes a new one.
    pub fn new(section: Section<'a>, entries: impl Into<Cow<'a, [IndexEntry]>>) -> Index<'a> {
        Index { section, entries: entries.into() }
    }

    /// The list.
    pub fn entries(&self) -> &[IndexEntry] {
        &self.entries
    }

    /// The rules at an address, none where no FDE of the list covers it. The FDE is found by
    /// halving, and its program is run up to the address.
    ///
    /// # Errors
    /// [`Error::OutOfMemory`]; and [`Error::BadIndex`] or [`Error::Refused`] where the list is not
    /// that of a section that was checked.
    pub fn row_at(&self, address: u64) -> Result<Option<Row<'a>>> {
        let (bytes, target) = (self.section.bytes, self.section.target());
        let found = dw_section::fde_by_index(bytes, target, &self.entries, address);
        let Some(found) = found.map_err(refused)? else { return Ok(None) };
        let mut room = RowRoom::new(Global);
        found.run(&mut room).map_err(refused)?;
        Row::new(room.row(), found.fde()).map(Some)
    }

    /// The frame of the caller of a function that stopped at `pc`, none where no FDE of the list
    /// covers that. `pc` is an address of the section: that of the process, less the load bias. For
    /// a caller give the return address less one, which is in the call.
    ///
    /// # Errors
    /// Those of [`row_at`](Index::row_at), and [`Error::Frame`].
    pub fn unwind(
        &self,
        pc: u64,
        registers: &Registers,
        memory: &mut (impl Memory + ?Sized),
        options: UnwindOptions,
    ) -> Result<Option<Frame>> {
        let (mut row, mut room) = (RowRoom::new(Global), FrameRoom::new(Global));
        let frame = dw_unwind::unwind_at(
            Global,
            self.section.bytes,
            self.section.target(),
            &self.entries,
            pc,
            &mut row,
            &mut room,
            &registers.0,
            &mut Reader(memory),
            options.default_rule,
            options.step_limit,
        );
        frame.map_or_else(no_frame, |frame| Frame::new(&frame).map(Some))
    }
}

impl fmt::Debug for Index<'_> {
    fn fmt(&self, f: &mut fmt::Formatter<'_>) -> fmt::Result {
        write!(f, "Index({:?}, {} entries)", self.section, self.entries.len())
    }
}
