//! What the calls answer. Answers are those of runs of the command that were worked out by hand.

mod sections;

use dwframe::{
    AddressSize, CfaRule, Column, Counts, DefaultRule, Endian, Environment, Error, Expression,
    FaultKind, Fde, Frame, FrameError, Index, IndexEntry, Memory, MemoryError, Operation, Refusal,
    RefusalCode, Register, RegisterRule, Registers, Row, Rows, Section, Table, UnwindExpression,
    UnwindOptions, Window,
};
use sections::{bytes, section};

fn of(bytes: &[u8]) -> Section<'_> {
    Section::new(bytes, AddressSize::Eight, Endian::Little)
}

/// A row as the command prints it.
fn text(row: &Row<'_>) -> String {
    let mut text = match &row.cfa {
        CfaRule::RegisterAndOffset { register, offset } => format!("cfa={register}{offset:+}"),
        CfaRule::Expression(_) => "cfa=expr".to_string(),
    };
    for (register, rule) in row.registers() {
        text += &match rule {
            RegisterRule::Undefined => format!(" {register}=u"),
            RegisterRule::SameValue => format!(" {register}=s"),
            RegisterRule::Offset(offset) => format!(" {register}=[cfa{offset:+}]"),
            RegisterRule::ValOffset(offset) => format!(" {register}=cfa{offset:+}"),
            RegisterRule::Register(other) => format!(" {register}={other}"),
            rule => panic!("{rule:?} is tested by itself"),
        };
    }
    text
}

fn rows(section: Section<'_>) -> Vec<String> {
    let mut lines = Vec::new();
    let table = section.check().expect("a section of the tests");
    for fde in table.fdes() {
        let (addresses, register) = (fde.addresses(), fde.return_register());
        let mut next = *addresses.start();
        lines.push(format!("fde {next:#x} {:#x} ra={register}", u128::from(*addresses.end()) + 1));
        for row in fde.rows() {
            let (own, row) = row.expect("memory");
            assert_eq!((*own.start(), &row.fde, row.return_register), (next, &addresses, register));
            lines.push(format!("{next:#x} {}", text(&row)));
            next = own.end().wrapping_add(1);
        }
        assert_eq!(next, addresses.end().wrapping_add(1), "the rows cover the FDE");
    }
    lines
}

#[test]
fn tells_the_rows_of_a_section() {
    let cases = [
        ("", ""),
        ("cie", ""),
        (
            "cie; plain",
            "fde 0x401000 0x401010 ra=r16 | 0x401000 cfa=r7+8 r16=[cfa-8] \
             | 0x401001 cfa=r7+16 r6=[cfa-16] r16=[cfa-8] \
             | 0x401004 cfa=r6+16 r6=[cfa-16] r16=[cfa-8] \
             | 0x40100f cfa=r7+8 r6=[cfa-16] r16=[cfa-8]",
        ),
        (
            "cie; fde fffffffffffffff0 10 50",
            "fde 0xfffffffffffffff0 0x10000000000000000 ra=r16 \
             | 0xfffffffffffffff0 cfa=r7+8 r16=[cfa-8]",
        ),
        (
            "cie; fde 1000 20 0a410e108602440b",
            "fde 0x1000 0x1020 ra=r16 | 0x1000 cfa=r7+8 r16=[cfa-8] \
             | 0x1001 cfa=r7+16 r6=[cfa-16] r16=[cfa-8] | 0x1005 cfa=r7+8 r16=[cfa-8]",
        ),
        (
            "cie; fde 1000 20 41071044d0",
            "fde 0x1000 0x1020 ra=r16 | 0x1000 cfa=r7+8 r16=[cfa-8] | 0x1001 cfa=r7+8 r16=u \
             | 0x1005 cfa=r7+8 r16=[cfa-8]",
        ),
        (
            "cie; fde 1010 10; fde 1000 10",
            "fde 0x1000 0x1010 ra=r16 | 0x1000 cfa=r7+8 r16=[cfa-8] \
             | fde 0x1010 0x1020 ra=r16 | 0x1010 cfa=r7+8 r16=[cfa-8]",
        ),
    ];
    for (entries, wanted) in cases {
        assert_eq!(rows(of(&section(entries))).join(" | "), wanted, "{entries}");
    }
    let big = include_bytes!("data/big-endian.bin");
    let wanted =
        "fde 0x10000400 0x10000440 ra=r65 | 0x10000400 cfa=r1+0 | 0x10000408 cfa=r1+16 r65=[cfa+4]";
    assert_eq!(rows(Section::new(big, AddressSize::Four, Endian::Big)).join(" | "), wanted);
}

#[test]
fn tells_the_first_fault_of_a_section() {
    let cases = [
        ("f0ffffff", "ReservedLength at 0x0"),
        ("14000000", "EntryPastEnd at 0x0"),
        ("cie; 08000000 00000000 00100000", "Truncated at 0x20"),
        ("14000000 ffffffff 04 7a 08 00 01 78 10 0c0708 9001 00000000", "Augmentation at 0x9"),
        ("14000000 ffffffff 04 00 04 00 01 78 10 0c0708 9001 00000000", "AddressSize at 0xa"),
        ("14000000 ffffffff 04 00 08 00 01 78 10 410708 9001 00000000", "NotInCie at 0xf"),
        ("cie; fde fffffffffffffff0 11", "RangeTooLarge at 0x28"),
        ("cie; fde 1000 10 01ff0f000000000000", "LocationBackwards at 0x30"),
        ("cie; fde 1000 10 0f019f", "NotInFrame at 0x32"),
        ("cie; fde 1000 10 2e10", "UnknownInstruction at 0x30"),
        ("cie; fde 1000 10 07808004", "RegisterTooLarge at 0x31"),
        ("blank; fde 1000 10", "NoCfaRule at 0x10"),
        ("cie; plain; plain", "Overlap at 0x40"),
    ];
    for (entries, wanted) in cases {
        let bytes = section(entries);
        let errors = [
            of(&bytes).check().map(|_| ()).unwrap_err(),
            of(&bytes).index().map(|_| ()).unwrap_err(),
            of(&bytes).normalize().unwrap_err(),
            of(&bytes).means_the_same(&[]).unwrap_err(),
        ];
        for error in errors {
            assert_eq!(error.to_string(), format!("refused: {wanted}"), "{entries}");
        }
        let error = of(&[]).means_the_same(&bytes).unwrap_err();
        assert_eq!(error.to_string(), format!("refused: {wanted} in second"), "{entries}");
    }
}

#[test]
fn counts_entries() {
    // An FDE of no addresses is counted, and not listed.
    let bytes = section("cie; 00000000; plain; fde 402000 0");
    let table = of(&bytes).check().expect("a well formed section");
    assert_eq!(table.counts(), Counts { cies: 1, fdes: 2 });
    assert_eq!((table.fdes().len(), table.section()), (1, of(&bytes)));
    assert!(table.fde_at(0x402000).is_none());
    assert_eq!(table.fde_at(0x40100f).map(|fde| fde.addresses()), Some(0x401000..=0x40100f));
}

#[test]
fn looks_addresses_up() {
    let bytes = section("cie; plain");
    let table = of(&bytes).check().expect("a well formed section");
    let owned = of(&bytes).index().expect("a well formed section");
    let kept = owned.entries().to_vec();
    for index in [
        &table.index(),
        &owned,
        &Index::new(of(&bytes), &kept),
        &Index::new(of(&bytes), kept.clone()),
    ] {
        let found = |address| index.row_at(address).expect("its own list").map(|row| text(&row));
        assert_eq!(found(0x401000).as_deref(), Some("cfa=r7+8 r16=[cfa-8]"));
        assert_eq!(found(0x401003).as_deref(), Some("cfa=r7+16 r6=[cfa-16] r16=[cfa-8]"));
        assert_eq!(found(0x401004).as_deref(), Some("cfa=r6+16 r6=[cfa-16] r16=[cfa-8]"));
        assert_eq!(found(0x40100f).as_deref(), Some("cfa=r7+8 r6=[cfa-16] r16=[cfa-8]"));
        assert_eq!((found(0x400fff), found(0x401010), found(u64::MAX)), (None, None, None));
    }
    let wanted = IndexEntry { begin: 0x401000, range: 0x10, at: 0x18, return_register: 16 };
    assert_eq!(kept, [wanted]);
}

#[test]
fn takes_any_list_for_an_index() {
    let bytes = section("cie; plain; blank; fde 1000 10");
    let row_at = |entry: IndexEntry, address| {
        let index = Index::new(of(&bytes), vec![entry]);
        index.row_at(address).map(|row| row.is_some())
    };
    let plain = IndexEntry { begin: 0x401000, range: 0x10, at: 0x18, return_register: 16 };
    // A CIE stands there, another FDE, nothing at all, and half an entry.
    assert_eq!(row_at(IndexEntry { at: 0, ..plain }, 0x401004), Err(Error::BadIndex));
    assert_eq!(row_at(IndexEntry { range: 0x20, ..plain }, 0x401010), Err(Error::BadIndex));
    assert_eq!(row_at(IndexEntry { at: u32::MAX, ..plain }, 0x401004), Err(Error::BadIndex));
    let cut = Refusal { code: RefusalCode::EntryPastEnd, at: 0x20 };
    assert_eq!(row_at(IndexEntry { at: 0x20, ..plain }, 0x401004), Err(Error::Refused(cut)));
    // The row of an FDE that no check would let pass: nothing says how its CFA is found.
    let blank = crate::section("blank; fde 1000 10");
    let entries = [IndexEntry { begin: 0x1000, range: 0x10, at: 0x10, return_register: 16 }];
    assert_eq!(Index::new(of(&blank), &entries).row_at(0x1000), Err(Error::BadIndex));
    // Lists in no order, that overlap, and that lead anywhere.
    let mut state = 1_u64;
    let mut random = move |below: u64| {
        state =
            state.wrapping_mul(6_364_136_223_846_793_005).wrapping_add(1_442_695_040_888_963_407);
        (state >> 33) % below
    };
    for _ in 0..20_000 {
        let entries: Vec<IndexEntry> = (0..random(4))
            .map(|_| IndexEntry {
                begin: [8, 0x1000, 0x401000, u64::MAX][random(4) as usize] - random(2) * random(8),
                range: [0, 0x10, u64::MAX][random(3) as usize],
                at: random(160) as u32,
                return_register: random(20) as u16,
            })
            .collect();
        let index = Index::new(of(&bytes), &entries);
        let address = [0x1004, 0x401004, random(0x402000), u64::MAX][random(4) as usize];
        let _ = index.row_at(address);
        let mut memory = |_: u64, _: &mut [u8]| Err(MemoryError::Unreadable);
        let _ = index.unwind(address, &Registers::default(), &mut memory, UnwindOptions::default());
    }
}

/// What the command prints of a frame.
fn told(frame: Result<Option<Frame>, Error>) -> String {
    match frame {
        Ok(Some(frame)) => {
            let mut text = format!("cfa {:#x} | ra {}", frame.cfa, frame.return_register);
            for (register, value) in frame.registers() {
                assert_eq!(frame.register(*register), *value);
                let value = value.map_or("undefined".to_string(), |value| format!("{value:#x}"));
                text += &format!(" | {register} {value}");
            }
            text
        }
        Ok(None) => "fault: NoFde".to_string(),
        Err(error) => error.to_string(),
    }
}

#[test]
fn unwinds_a_frame() {
    let plain = "cie; plain";
    let each_kind = "cie; fde 1000 10 09060314030116050223010710";
    let stack = "0002000000000000 8812400000000000";
    let cases = [
        (
            plain,
            0x401004,
            "6=7ffe00 7=7ffdf0",
            stack,
            "cfa 0x7ffe10 | ra r16 | r6 0x200 | r7 0x7ffdf0 | r16 0x401288",
        ),
        (
            each_kind,
            0x1000,
            "3=33 7=2000",
            "",
            "cfa 0x2008 | ra r16 | r3 0x2000 | r5 0x2009 | r6 0x33 | r7 0x2000 | r16 undefined",
        ),
        (plain, 0x401010, "", "", "fault: NoFde"),
        (plain, 0x401000, "", "", "fault: NoRegister in cfa"),
        (plain, 0x401000, "7=0", "", "fault: Unreadable in r16"),
        // The last byte of the memory is missing.
        (
            plain,
            0x401004,
            "6=7ffe00 7=7ffdf0",
            "0002000000000000 88124000000000",
            "fault: Unreadable in r16",
        ),
        (each_kind, 0x1000, "7=2000", "", "fault: NoRegister in r6"),
        ("cie; fde 1000 10 16050113", 0x1000, "7=2000", "", "fault: EmptyResult at 1 in r5"),
        ("cie; fde 1000 10 0f032ffdff", 0x1000, "", "", "fault: StepLimit at 0 in cfa"),
    ];
    for (entries, pc, given, memory, wanted) in cases {
        let (section, memory) = (section(entries), bytes(memory));
        let given = given.split_whitespace().map(|word| {
            let (register, value) = word.split_once('=').expect("a register and a value");
            (Register(register.parse().unwrap()), u64::from_str_radix(value, 16).unwrap())
        });
        let registers = Registers::from_values(given).expect("registers below 128");
        let mut memory = Window { address: 0x7ffe00, bytes: &memory };
        let index = of(&section).index().expect("a well formed section");
        let frame = index.unwind(pc, &registers, &mut memory, UnwindOptions::default());
        assert_eq!(told(frame), wanted, "{entries}");
    }
}

#[test]
fn reads_memory_as_it_is_wanted() {
    let bytes = section("cie; plain");
    let index = of(&bytes).index().expect("a well formed section");
    let registers =
        Registers::from_values([(Register(6), 0x7ffe00), (Register(7), 0x7ffdf0)]).unwrap();
    let mut reads = Vec::new();
    let mut memory = |address: u64, buffer: &mut [u8]| {
        reads.push((address, buffer.len()));
        buffer.fill(1);
        Ok(())
    };
    let frame = index.unwind(0x401004, &registers, &mut memory, UnwindOptions::default());
    let frame = frame.unwrap().expect("an FDE covers the address");
    assert_eq!(reads, [(0x7ffe00, 8), (0x7ffe08, 8)]);
    assert_eq!(frame.return_address(), Some(0x0101_0101_0101_0101));
    let caller = frame.caller(Register(7)).expect("registers below 128");
    let values = [6, 7, 16, 3].map(|number| caller.get(Register(number)));
    assert_eq!(
        values,
        [Some(0x0101_0101_0101_0101), Some(0x7ffe10), Some(0x0101_0101_0101_0101), None]
    );
    // A memory that fails, also as a trait object, and what is missing by its address.
    let mut failing = |_: u64, _: &mut [u8]| Err(MemoryError::Device);
    let failing: &mut dyn Memory = &mut failing;
    let error = index.unwind(0x401004, &registers, failing, UnwindOptions::default()).unwrap_err();
    assert_eq!(error, Error::Frame(FrameError::Device { column: Column::Register(6) }));
    let error =
        index.unwind(0x401004, &registers, &mut Window::default(), UnwindOptions::default());
    let missing = FrameError::Unreadable { column: Column::Register(6), address: 0x7ffe00, len: 8 };
    assert_eq!(error, Err(Error::Frame(missing)));
}

#[test]
fn takes_registers_without_a_rule_as_it_is_told() {
    let bytes = section("cie; plain");
    let index = of(&bytes).index().expect("a well formed section");
    let registers = Registers::from_values([(Register(6), 0x7ffe00), (Register(3), 5)]).unwrap();
    for (default_rule, value) in [(DefaultRule::SameValue, Some(5)), (DefaultRule::Undefined, None)]
    {
        let options = UnwindOptions { default_rule, ..UnwindOptions::default() };
        let mut memory = |_: u64, buffer: &mut [u8]| {
            buffer.fill(0);
            Ok(())
        };
        let frame = index.unwind(0x401004, &registers, &mut memory, options).unwrap().unwrap();
        assert_eq!((frame.register(Register(3)), frame.register(Register(9))), (value, None));
    }
}

#[test]
fn reads_a_window_up_to_the_last_address() {
    let mut window = Window { address: u64::MAX - 7, bytes: &[1, 2, 3, 4, 5, 6, 7, 8] };
    let mut buffer = [0; 4];
    assert_eq!(window.read(u64::MAX - 3, &mut buffer), Ok(()));
    assert_eq!(buffer, [5, 6, 7, 8]);
    assert_eq!(window.read(u64::MAX - 2, &mut buffer), Err(MemoryError::Unreadable));
    assert_eq!(window.read(0, &mut buffer), Err(MemoryError::Unreadable));
    assert_eq!(buffer, [5, 6, 7, 8]);
}

#[test]
fn evaluates_expressions() {
    let cases = [
        ("3809ff1b", None, 10_000, Ok(0xffff_ffff_ffff_fff8)),
        ("38301b", None, 10_000, Err("fault: DivideByZero at 2")),
        ("0880084024", None, 10_000, Ok(0)),
        ("31323317", None, 10_000, Ok(2)),
        ("2ffdff", None, 1000, Err("fault: StepLimit at 0")),
        ("3a311c1228faff", None, 41, Ok(0)),
        ("3a311c1228faff", None, 40, Err("fault: StepLimit at 4")),
        ("", Some(5), 10_000, Ok(5)),
        ("50", None, 10_000, Err("fault: NotAValue at 0")),
        ("12", None, 10_000, Err("fault: StackUnderflow at 0")),
        ("770806", None, 10_000, Err("fault: NoRegister at 0")),
        ("0c01020304", None, 10_000, Ok(0x0403_0201)),
        ("11ff7e", None, 10_000, Ok(0xffff_ffff_ffff_ff7f)),
    ];
    let registers = Registers::default();
    for (block, initial, step_limit, wanted) in cases {
        let block = bytes(block);
        let parsed =
            Expression::parse(&block, AddressSize::Eight, Endian::Little).expect("a block");
        let environment = Environment { initial, step_limit, ..Environment::new(&registers) };
        let value = parsed.evaluate(&environment, &mut Window::default());
        assert_eq!(
            value.map_err(|error| error.to_string()),
            wanted.map_err(str::to_string),
            "{block:x?}"
        );
    }
    let refused = Expression::parse(&[0x76], AddressSize::Eight, Endian::Little).unwrap_err();
    assert_eq!(refused, Error::Refused(Refusal { code: RefusalCode::Truncated, at: 1 }));
}

// Worked by hand from DWARF 5, 2.5.1.
#[test]
fn gives_an_expression_what_it_asks_for() {
    let registers = Registers::from_values([(Register(6), 0x7ffe00)]).unwrap();
    let known = Environment {
        frame_base: Some(0x10),
        cfa: Some(0x20),
        object: Some(0x30),
        ..Environment::new(&registers)
    };
    let mut memory = Window { address: 0x7ffe00, bytes: &[0, 2, 0, 0, 0, 0, 0, 0] };
    let value = |block: &[u8], environment: &Environment<'_>, memory: &mut Window<'_>| {
        let parsed = Expression::parse(block, AddressSize::Eight, Endian::Little).expect("a block");
        parsed.evaluate(environment, memory)
    };
    // breg6 0, deref; fbreg -8; call_frame_cfa, plus_uconst 1; push_object_address.
    for (block, wanted, kind) in [
        (b"\x76\0\x06".as_slice(), 0x200, None),
        (b"\x91\x78", 8, Some(FaultKind::NoFrameBase)),
        (b"\x9c\x23\x01", 0x21, Some(FaultKind::NoCfa)),
        (b"\x97", 0x30, Some(FaultKind::NoObject)),
    ] {
        assert_eq!(value(block, &known, &mut memory), Ok(wanted));
        if let Some(kind) = kind {
            let unknown = value(block, &Environment::new(&registers), &mut memory);
            assert_eq!(unknown, Err(Error::Expression(kind, 0)));
        }
    }
    let missing = FaultKind::Unreadable { address: 0x7ffe08, len: 8 };
    assert_eq!(value(b"\x76\x08\x06", &known, &mut memory), Err(Error::Expression(missing, 1)));
}

#[test]
fn tells_the_expressions_of_rules() {
    // breg7 8, deref: once in its short spelling, and once as bregx.
    let short = section("cie; fde 1000 10 0f03770806");
    let long = section("cie; fde 1000 10 0f0492070806");
    let cfa = |bytes: &[u8], look: &dyn Fn(&UnwindExpression<'_>)| {
        let index = of(bytes).index().expect("a well formed section");
        match index.row_at(0x1000).expect("its own list").expect("an FDE covers the address").cfa {
            CfaRule::Expression(expression) => look(&expression),
            rule => panic!("{rule:?} is another rule"),
        }
    };
    cfa(&short, &|one| {
        cfa(&long, &|other| {
            assert_eq!(one, other);
            assert!(one.operations().eq([Operation::Breg(7, 8), Operation::Deref]));
            assert_eq!(other.clone().decode().unwrap().to_bytes().unwrap(), [0x77, 0x08, 0x06]);
            let registers = Registers::from_values([(Register(7), 0x2000)]).unwrap();
            let mut memory = Window { address: 0x2008, bytes: &[0x10, 0x20, 0, 0, 0, 0, 0, 0] };
            let decoded = one.decode().unwrap();
            assert_eq!(decoded.evaluate(&Environment::new(&registers), &mut memory), Ok(0x2010));
        });
    });
}

#[test]
fn writes_and_compares_normal_forms() {
    let wanted = section("normal; fde 401000 10 410e108610430d064b0c0708");
    let scrambled = include_bytes!("data/scrambled.bin");
    for source in [section("cie; plain"), scrambled.to_vec(), wanted.clone()] {
        assert_eq!(of(&source).normalize(), Ok(wanted.clone()));
        assert_eq!(of(&source).means_the_same(&wanted), Ok(true));
    }
    let same = |one, other| of(&section(one)).means_the_same(&section(other));
    assert_eq!(same("cie; fde 1000 10 830344c3", "cie; fde 1000 10 8303440703"), Ok(false));
    let (restored, set) = ("fde 1000 20 0a410e108602440b", "fde 1000 20 410e108602440e08c6");
    assert_eq!(same(&format!("cie; {restored}"), &format!("cie; {set}")), Ok(true));
}

#[test]
fn prints_no_bytes_of_a_section() {
    let bytes = section(&["cie; plain", &"; 00000000".repeat(1000)].concat());
    let table = of(&bytes).check().expect("a well formed section");
    let fde = table.fde_at(0x401000).expect("an FDE covers the address");
    for shown in
        [format!("{table:?}"), format!("{:?}", table.index()), format!("{:?} {fde:?}", fde.rows())]
    {
        assert!(shown.len() < 300, "{shown}");
    }
    assert!(format!("{table:?}").contains("4064 bytes"), "{table:?}");
}

#[test]
fn may_be_shared_by_threads() {
    fn shared<T: Send + Sync>() {}
    shared::<Section<'_>>();
    shared::<Table<'_>>();
    shared::<Fde<'_, '_>>();
    shared::<Rows<'_>>();
    shared::<Row<'_>>();
    shared::<Index<'_>>();
    shared::<UnwindExpression<'_>>();
    shared::<Expression<'_>>();
    shared::<Registers>();
    shared::<Frame>();
    shared::<Window<'_>>();
    shared::<Error>();
}
