//! Reads a core file, and the files that were mapped. Nothing that they say is trusted: what makes
//! no sense is left out.
//!
//! The notes of a core file (PT_NOTE) are the registers of each thread (NT_PRSTATUS), the auxiliary
//! vector (NT_AUXV), which says where the program was loaded, and the parts of files that were
//! mapped (NT_FILE). Its segments (PT_LOAD) are the memory, but for what stands unchanged in those
//! files.

use object::LittleEndian as Little;
use object::elf::{self, FileHeader64, ProgramHeader64};
use object::read::elf::{FileHeader, ProgramHeader, SectionHeader};
use std::ffi::OsStr;
use std::fs;
use std::ops::Range;
use std::os::unix::ffi::OsStrExt;
use std::path::{Path, PathBuf};

/// So much of a file is compared with what was mapped: the headers, and the build ID behind them.
const COMPARED: u64 = 1024;
const AT_ENTRY: u64 = 9;
const NT_ARM_PAC_MASK: u32 = 0x406;
/// Where pr_pid and pr_reg stand in struct elf_prstatus of a processor of 64 bits.
const PR_PID: u64 = 32;
const PR_REG: u64 = 112;

fn bytes_at<const N: usize>(bytes: &[u8], place: u64) -> Option<[u8; N]> {
    bytes.get(place as usize..)?.first_chunk().copied()
}

/// The number of eight bytes, little-endian, from a place on.
pub fn u64_at(bytes: &[u8], place: u64) -> Option<u64> {
    bytes_at(bytes, place).map(u64::from_le_bytes)
}

/// The `len` bytes from `place` on, or as many of them as are there: files may be cut off.
fn part(bytes: &[u8], place: u64, len: u64) -> &[u8] {
    let rest = bytes.get(place as usize..).unwrap_or_default();
    &rest[..rest.len().min(len as usize)]
}

/// The bytes of a file. A core file may name a pipe or a device, and these are not opened.
fn load(path: &Path) -> Option<Vec<u8>> {
    fs::metadata(path).ok()?.is_file().then(|| fs::read(path).ok())?
}

/// Why the program ends, with a status.
pub struct Stop {
    pub status: u8,
    pub text: String,
}

impl Stop {
    fn unreadable(path: &Path) -> Stop {
        Stop { status: 4, text: format!("cannot read {}", path.display()) }
    }

    /// A file that is not of the right kind.
    pub fn wrong(text: String) -> Stop {
        Stop { status: 2, text }
    }
}

/// A segment: where its bytes stand in the file, and its addresses there.
#[derive(Clone, Copy)]
struct Segment {
    is_writable: bool,
    offset: u64,
    address: u64,
    file_len: u64,
    memory_len: u64,
}

impl Segment {
    fn of(header: &ProgramHeader64<Little>) -> Segment {
        let (offset, file_len) = header.file_range(Little);
        let (address, memory_len) = (header.p_vaddr(Little), header.p_memsz(Little));
        Segment {
            is_writable: header.p_flags(Little) & elf::PF_W != 0,
            offset,
            address,
            file_len,
            memory_len,
        }
    }

    /// The bytes from an address on, at most `len`, where the segment has that address.
    fn bytes_at<'b>(&self, file: &'b [u8], address: u64, len: u64) -> Option<&'b [u8]> {
        let before = address.checked_sub(self.address).filter(|&before| before < self.file_len)?;
        Some(part(file, self.offset.checked_add(before)?, len.min(self.file_len - before)))
    }
}

/// The header and the segments of an ELF file of 64 bits, little-endian.
struct Elf<'b> {
    header: &'b FileHeader64<Little>,
    segments: &'b [ProgramHeader64<Little>],
}

impl<'b> Elf<'b> {
    fn read(bytes: &'b [u8]) -> Option<Elf<'b>> {
        let header = FileHeader64::parse(bytes).ok()?;
        header.endian().ok()?;
        Some(Elf { header, segments: header.program_headers(Little, bytes).ok()? })
    }

    fn loads(&self) -> Vec<Segment> {
        let loads = self.segments.iter().filter(|segment| segment.p_type(Little) == elf::PT_LOAD);
        loads.map(Segment::of).collect()
    }

    /// Where the contents of the section `.debug_frame` stand, or why there are none.
    fn find_table(&self, bytes: &[u8]) -> Result<Range<usize>, &'static str> {
        let sections = self.header.sections(Little, bytes).ok();
        let found = sections.as_ref().and_then(|all| all.section_by_name(Little, b".debug_frame"));
        let (_, found) = found.ok_or("the file has no .debug_frame")?;
        let is_compressed = found.sh_flags(Little) & u64::from(elf::SHF_COMPRESSED) != 0;
        if found.sh_type(Little) != elf::SHT_PROGBITS || is_compressed {
            return Err("the file's .debug_frame is compressed");
        }
        let (offset, len) = (found.sh_offset(Little), found.sh_size(Little));
        let begin = bytes.len().min(offset as usize);
        Ok(begin..begin + part(bytes, offset, len).len())
    }
}

/// A part of a file that was mapped: its addresses, and the place of its first byte in the file.
struct Mapping {
    begin: u64,
    end: u64,
    offset: u64,
}

impl Mapping {
    /// The bias of a file, from the first segment that begins in the part.
    fn bias_of(&self, loads: &[Segment]) -> Option<u64> {
        let len = self.end.wrapping_sub(self.begin);
        let first = loads.iter().find(|load| load.offset.wrapping_sub(self.offset) < len)?;
        let begin = self.begin.wrapping_add(first.offset).wrapping_sub(self.offset);
        Some(begin.wrapping_sub(first.address))
    }
}

/// A file that was mapped. Its addresses in memory are `bias` more than in the file.
pub struct Module {
    pub path: PathBuf,
    pub bias: u64,
    pub addresses: Range<u64>,
    bytes: Vec<u8>,
    loads: Vec<Segment>,
    table: Result<Range<usize>, &'static str>,
}

impl Module {
    /// An ELF file whose bias is known. Of one that is another now no byte is used.
    fn new(core: &Core, path: PathBuf, bias: u64, bytes: Vec<u8>) -> Module {
        let elf = Elf::read(&bytes);
        let loads = elf.as_ref().map(Elf::loads).unwrap_or_default();
        let begins = loads.iter().map(|load| bias.wrapping_add(load.address));
        let ends =
            loads.iter().map(|load| bias.wrapping_add(load.address).wrapping_add(load.memory_len));
        let addresses = begins.min().unwrap_or(u64::MAX)..ends.max().unwrap_or(0);
        match elf {
            Some(elf) if core.has_begin_of(&bytes, &loads, bias) => {
                let table = elf.find_table(&bytes);
                Module { path, bias, addresses, bytes, loads, table }
            }
            _ => {
                let table = Err("the file is not the one that was mapped");
                Module { path, bias, addresses, bytes: Vec::new(), loads: Vec::new(), table }
            }
        }
    }

    /// A file of which a part was mapped. One that cannot be used has the addresses of the part.
    fn of_mapping(core: &Core, path: PathBuf, mapping: &Mapping) -> Module {
        let mut lacks = "the file cannot be read";
        if let Some(bytes) = load(&path) {
            let elf = Elf::read(&bytes).filter(|elf| elf.header.e_machine(Little) == core.machine);
            if let Some(bias) = elf.and_then(|elf| mapping.bias_of(&elf.loads())) {
                return Module::new(core, path, bias, bytes);
            }
            lacks = "the file is not an ELF file that was loaded there";
        }
        let (bias, addresses) =
            (mapping.begin.wrapping_sub(mapping.offset), mapping.begin..mapping.end);
        Module { path, bias, addresses, bytes: Vec::new(), loads: Vec::new(), table: Err(lacks) }
    }

    /// The section `.debug_frame`, or why there is none.
    pub fn table(&self) -> Result<&[u8], &'static str> {
        Ok(&self.bytes[self.table.clone()?])
    }

    /// The bytes at an address of a segment that is not written to.
    fn constant_at(&self, address: u64, len: u64) -> Option<&[u8]> {
        let address = address.wrapping_sub(self.bias);
        let mut constant = self.loads.iter().filter(|load| !load.is_writable);
        let found = constant.find_map(|load| load.bytes_at(&self.bytes, address, len));
        found.filter(|found| found.len() as u64 == len)
    }
}

/// A thread: its number, and the words of pr_reg.
pub struct Thread {
    pub id: i32,
    pub registers: Vec<u8>,
}

/// A program that stopped.
#[derive(Default)]
pub struct Core {
    pub machine: u16,
    pub threads: Vec<Thread>,
    /// The bits of a return address that may sign it.
    pub signature: u64,
    bytes: Vec<u8>,
    loads: Vec<Segment>,
    auxiliary: Vec<u8>,
    files: Vec<u8>,
}

impl Core {
    fn read(path: &Path) -> Result<Core, Stop> {
        let bytes = load(path).ok_or_else(|| Stop::unreadable(path))?;
        let elf = Elf::read(&bytes).filter(|elf| elf.header.e_type(Little) == elf::ET_CORE);
        let Some(elf) = elf else {
            let path = path.display();
            return Err(Stop::wrong(format!(
                "{path} is not a core file of 64 bits, little-endian"
            )));
        };
        let machine = elf.header.e_machine(Little);
        let mut core = Core { machine, loads: elf.loads(), ..Core::default() };
        for segment in elf.segments {
            core.take_notes(segment, &bytes);
        }
        core.bytes = bytes;
        Ok(core)
    }

    fn take_notes(&mut self, segment: &ProgramHeader64<Little>, bytes: &[u8]) {
        let Ok(Some(mut notes)) = segment.notes(Little, bytes) else {
            return;
        };
        while let Ok(Some(note)) = notes.next() {
            self.take_note(note.n_type(Little), note.desc());
        }
    }

    fn take_note(&mut self, kind: u32, contents: &[u8]) {
        match kind {
            elf::NT_PRSTATUS => self.threads.extend(bytes_at(contents, PR_PID).map(|id| Thread {
                id: i32::from_le_bytes(id),
                registers: part(contents, PR_REG, u64::MAX).to_vec(),
            })),
            elf::NT_AUXV => self.auxiliary = contents.to_vec(),
            elf::NT_FILE => self.files = contents.to_vec(),
            // The mask of addresses of data, and that of addresses of instructions.
            NT_ARM_PAC_MASK => self.signature = u64_at(contents, 8).unwrap_or(self.signature),
            _ => {}
        }
    }

    /// Whether an address was mapped at all. Of a segment the core file may have no byte.
    pub fn was_mapped(&self, address: u64) -> bool {
        self.loads.iter().any(|load| address.wrapping_sub(load.address) < load.memory_len)
    }

    /// The bytes from an address on, at most `len`, as many as one segment has.
    pub fn memory_at(&self, address: u64, len: u64) -> &[u8] {
        let found = self.loads.iter().find_map(|load| load.bytes_at(&self.bytes, address, len));
        found.unwrap_or_default()
    }

    /// Whether a file is still the one that was mapped, as far as the core file has its begin.
    fn has_begin_of(&self, bytes: &[u8], loads: &[Segment], bias: u64) -> bool {
        let Some(first) = loads.first() else {
            return true;
        };
        let now = part(bytes, first.offset, first.file_len.min(COMPARED));
        let then = self.memory_at(bias.wrapping_add(first.address), now.len() as u64);
        now.starts_with(then)
    }

    /// Fills a buffer from the core file, and from the files that were mapped where that has no
    /// byte.
    pub fn fill(&self, modules: &[Module], address: u64, buffer: &mut [u8]) -> bool {
        let len = buffer.len() as u64;
        let mut found = self.memory_at(address, len);
        if found.is_empty() {
            let module = module_at(modules, address);
            found = module.and_then(|module| module.constant_at(address, len)).unwrap_or_default();
        }
        let (own, rest) = buffer.split_at_mut(found.len());
        own.copy_from_slice(found);
        // The rest may stand in the next segment.
        rest.is_empty() || !own.is_empty() && self.fill(modules, address + own.len() as u64, rest)
    }

    /// The program: the auxiliary vector says where its entry was loaded.
    fn program(&self, path: &Path) -> Result<Module, Stop> {
        let bytes = load(path).ok_or_else(|| Stop::unreadable(path))?;
        let elf = Elf::read(&bytes).filter(|elf| elf.header.e_machine(Little) == self.machine);
        let Some(linked) = elf.map(|elf| elf.header.e_entry(Little)) else {
            let path = path.display();
            return Err(Stop::wrong(format!(
                "{path} is not an ELF file of the core file's processor"
            )));
        };
        let mut items = self.auxiliary.chunks_exact(16);
        let entry = items.find(|item| u64_at(item, 0) == Some(AT_ENTRY));
        let Some(loaded) = entry.and_then(|item| u64_at(item, 8)) else {
            let text = "the core file does not say where the program was loaded";
            return Err(Stop::wrong(text.into()));
        };
        Ok(Module::new(self, path.to_owned(), loaded.wrapping_sub(linked), bytes))
    }

    /// The parts of NT_FILE, each with its path: there stand how many they are, the size of a page,
    /// the parts, and the paths, each with a zero byte behind it.
    fn mappings(&self) -> impl Iterator<Item = (Mapping, &Path)> {
        let word = |number: u64| u64_at(&self.files, number * 8);
        let most = self.files.len() as u64 / 24;
        let count = word(0).filter(|&count| count <= most).unwrap_or(0);
        let page_size = word(1).unwrap_or(0);
        let parts = (0..count).map_while(move |number| {
            let [begin, end, page] = [2, 3, 4].map(|at| word(number * 3 + at));
            Some(Mapping { begin: begin?, end: end?, offset: page?.wrapping_mul(page_size) })
        });
        let names = part(&self.files, 16 + 24 * count, u64::MAX).split_inclusive(|&byte| byte == 0);
        let paths = names.filter_map(|name| name.strip_suffix(b"\0"));
        parts.zip(paths.map(|path| Path::new(OsStr::from_bytes(path))))
    }

    /// The program and the files that were mapped, each once.
    fn modules(&self, program: &Path) -> Result<Vec<Module>, Stop> {
        let mut modules = vec![self.program(program)?];
        for (mapping, path) in self.mappings() {
            if module_at(&modules, mapping.begin).is_none() {
                modules.push(Module::of_mapping(self, path.to_owned(), &mapping));
            }
        }
        Ok(modules)
    }
}

/// The module that an address is in.
pub fn module_at(modules: &[Module], address: u64) -> Option<&Module> {
    modules.iter().find(|module| module.addresses.contains(&address))
}

/// Reads a core file, the program that stopped, and all files that were mapped.
pub fn read(program: &Path, path: &Path) -> Result<(Core, Vec<Module>), Stop> {
    let core = Core::read(path)?;
    let modules = core.modules(program)?;
    Ok((core, modules))
}
