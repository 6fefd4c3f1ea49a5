//! Sections of the tests, little-endian with addresses of 8 bytes.

const NAMES: [(&str, &str); 4] = [
    ("cie", "14000000 ffffffff 04 00 08 00 01 78 10 0c0708 9001 00000000"),
    ("normal", "14000000 ffffffff 04 00 08 00 01 7f 10 0c0708 9008 00000000"),
    ("blank", "0c000000 ffffffff 04 00 08 00 01 7f 10 00"),
    (
        "plain",
        "24000000 00000000 0010400000000000 1000000000000000 41 0e10 8602 43 0d06 4b 0c0708\
         00000000",
    ),
];

/// The bytes that hexadecimal digits spell.
pub fn bytes(digits: &str) -> Vec<u8> {
    let digits = digits.replace(' ', "");
    let mut bytes = vec![0; digits.len() / 2];
    hex::decode_to_slice(digits, &mut bytes).expect("an even number of hexadecimal digits");
    bytes
}

fn entry(text: &str) -> Vec<u8> {
    if let Some((_, digits)) = NAMES.iter().find(|(name, _)| *name == text) {
        return bytes(digits);
    }
    let Some(fields) = text.strip_prefix("fde ") else {
        return bytes(text);
    };
    // An FDE of the CIE at 0, with nops behind it up to a multiple of 8.
    let mut fields = fields.splitn(3, ' ');
    let mut number = || u64::from_str_radix(fields.next().unwrap_or("0"), 16).expect("a number");
    let (begin, range) = (number(), number());
    let program = bytes(fields.next().unwrap_or(""));
    let mut contents = vec![0; 4];
    contents.extend([begin.to_le_bytes(), range.to_le_bytes()].concat());
    contents.extend(program);
    contents.resize((contents.len() + 4).next_multiple_of(8) - 4, 0);
    [u32::to_le_bytes(contents.len() as u32).as_slice(), &contents].concat()
}

/// The bytes of a list of entries: digits, names, and `fde BEGIN RANGE PROGRAM`.
pub fn section(text: &str) -> Vec<u8> {
    text.split("; ").flat_map(entry).collect()
}
