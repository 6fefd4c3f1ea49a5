//! A section, and the ways over its entries. The byte order is a type, so that no read asks for it.

use gimli::{
    BaseAddresses, CieOrFde, CommonInformationEntry, DebugFrame, DebugFrameOffset, EndianSlice,
    Endianity, FrameDescriptionEntry, PartialFrameDescriptionEntry, Reader, RunTimeEndian,
    UnwindSection,
};

pub type Bytes<'a, E> = EndianSlice<'a, E>;
pub type Cie<'a, E> = CommonInformationEntry<Bytes<'a, E>, usize>;
pub type Fde<'a, E> = FrameDescriptionEntry<Bytes<'a, E>, usize>;
type Part<'b, 'a, E> = PartialFrameDescriptionEntry<'b, DebugFrame<Bytes<'a, E>>, Bytes<'a, E>>;
pub type Answer<T> = Result<T, String>;

#[cold]
pub fn refused(error: gimli::Error) -> String {
    format!("{error:?}")
}

pub struct Section<'a, E: Endianity> {
    pub frame: DebugFrame<Bytes<'a, E>>,
    pub bases: BaseAddresses,
    bytes: Bytes<'a, E>,
    size: u8,
}

/// An entry, an FDE unparsed and with the CIEs before it.
pub enum Entry<'p, 'a, E: Endianity> {
    Cie(&'p Cie<'a, E>),
    Fde(&'p Cies<'a, E>, &'p Part<'p, 'a, E>),
}

/// The CIEs that were read, by place.
pub struct Cies<'a, E: Endianity>(Vec<Cie<'a, E>>);

impl<'a, E: Endianity> Cies<'a, E> {
    pub fn len(&self) -> usize {
        self.0.len()
    }

    /// The CIE at a place. That of an FDE mostly is the last one that was read.
    #[inline]
    fn at(&self, place: usize) -> Option<&Cie<'a, E>> {
        match self.0.last() {
            Some(last) if last.offset() == place => Some(last),
            _ => {
                let found = self.0.binary_search_by_key(&place, Cie::offset);
                found.ok().map(|at| &self.0[at])
            }
        }
    }

    /// The CIE that an FDE names, which may stand behind it.
    #[inline(always)]
    fn named(
        &self,
        frame: &DebugFrame<Bytes<'a, E>>,
        bases: &BaseAddresses,
        place: DebugFrameOffset,
    ) -> gimli::Result<Cie<'a, E>> {
        match self.at(place.0) {
            Some(cie) => Ok(cie.clone()),
            None => frame.cie_from_offset(bases, place),
        }
    }
}

impl<'a, E: Endianity> Section<'a, E> {
    pub fn new(bytes: &'a [u8], size: u8, order: E) -> Self {
        let bytes = EndianSlice::new(bytes, order);
        let mut frame = DebugFrame::from(bytes);
        frame.set_address_size(size);
        Section {
            frame,
            bases: BaseAddresses::default(),
            bytes,
            size,
        }
    }

    /// The same section, its byte order a value.
    pub fn of_any_order(&self) -> Section<'a, RunTimeEndian> {
        let order = match self.bytes.endian().is_big_endian() {
            true => RunTimeEndian::Big,
            false => RunTimeEndian::Little,
        };
        Section::new(self.bytes.slice(), self.size, order)
    }

    /// Each entry by place, an FDE unparsed, a CIE read once.
    #[inline(always)]
    pub fn each_entry(
        &self,
        mut each: impl FnMut(Entry<'_, 'a, E>) -> Answer<()>,
    ) -> Answer<Cies<'a, E>> {
        let mut cies = Cies(Vec::new());
        let mut entries = self.frame.entries(&self.bases);
        while let Some(entry) = entries.next().map_err(refused)? {
            match entry {
                CieOrFde::Cie(cie) => {
                    each(Entry::Cie(&cie))?;
                    cies.0.push(cie);
                }
                CieOrFde::Fde(part) => each(Entry::Fde(&cies, &part))?,
            }
        }
        Ok(cies)
    }

    /// Each FDE by place.
    #[inline(always)]
    pub fn each_fde(&self, mut each: impl FnMut(Fde<'a, E>) -> Answer<()>) -> Answer<Cies<'a, E>> {
        self.each_entry(|entry| {
            let Entry::Fde(cies, part) = entry else {
                return Ok(());
            };
            each(self.parse(cies, part)?)
        })
    }

    #[inline(always)]
    pub fn parse(&self, cies: &Cies<'a, E>, part: &Part<'_, 'a, E>) -> Answer<Fde<'a, E>> {
        part.parse(|frame, bases, at| cies.named(frame, bases, at))
            .map_err(refused)
    }

    /// Each nonempty FDE by begin. Kept of one that was seen are its begin and its place alone.
    #[inline(always)]
    pub fn each_fde_by_begin(&self, mut each: impl FnMut(&Fde<'a, E>) -> Answer<()>) -> Answer<()> {
        let mut index: Vec<u128> = Vec::new();
        let cies = self.each_fde(|fde| {
            if fde.len() > 0 {
                index.push(u128::from(fde.initial_address()) << 64 | fde.offset() as u128);
            }
            Ok(())
        })?;
        index.sort_unstable();
        for key in index {
            let place = DebugFrameOffset(key as usize);
            let fde = self
                .frame
                .fde_from_offset(&self.bases, place, |frame, bases, at| {
                    cies.named(frame, bases, at)
                });
            each(&fde.map_err(refused)?)?;
        }
        Ok(())
    }
}
