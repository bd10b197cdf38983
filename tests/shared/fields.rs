// The fields of lines and the answers, as 01 and docs/DECISIONS.md have them: exactly one space between fields.

pub const V: char = 'V';
pub const G: char = 'G';
const NAN: u64 = 0x7FF8_0000_0000_0000;

// One or more digits, at most 2^64 - 1.
pub fn decimal(field: &str) -> Option<u64> {
    let digits = !field.is_empty() && field.bytes().all(|b| b.is_ascii_digit());
    if digits { field.parse().ok() } else { None }
}

// Exactly 16 digits out of 0-9 and A-F.
pub fn word(field: &str) -> Option<u64> {
    let digits = field.len() == 16 && field.bytes().all(|b| matches!(b, b'0'..=b'9' | b'A'..=b'F'));
    if digits { u64::from_str_radix(field, 16).ok() } else { None }
}

pub fn float(field: &str) -> Option<f64> {
    word(field).map(f64::from_bits)
}

pub fn flag(field: &str) -> Option<bool> {
    match field {
        "0" => Some(false),
        "1" => Some(true),
        _ => None,
    }
}

pub struct Answer {
    pub number: u64,
    pub kind: char,
    pub words: Vec<u64>,
}

pub fn answer(line: &str) -> Option<Answer> {
    let fields: Vec<&str> = line.split(' ').collect();
    let kind = match fields.get(1) {
        Some(&"V") => V,
        Some(&"G") => G,
        _ => return None,
    };
    let words = fields[2..].iter().map(|f| word(f)).collect::<Option<Vec<_>>>()?;
    Some(Answer { number: decimal(fields[0])?, kind, words })
}

// Words as they are given: every pattern as it is.
pub fn given(words: &[u64]) -> String {
    words.iter().map(|w| format!(" {w:016X}")).collect()
}

// Values as they are printed: every NaN alike.
pub fn printed(values: &[f64]) -> String {
    let bits = |v: &f64| if v.is_nan() { NAN } else { v.to_bits() };
    given(&values.iter().map(bits).collect::<Vec<_>>())
}
