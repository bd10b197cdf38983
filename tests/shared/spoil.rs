// Lines spoilt in one place, so that most are of no form. What a spoilt line gets is decided by its form, as for any other.

use crate::random::Random;

const LARGE: [&str; 3] = ["18446744073709551616", "99999999999999999999", "100000000000000000000000000000000000000"];

// Another text in place of one field.
fn field(random: &mut Random, old: &str) -> String {
    let at = random.below(old.len().max(1) as u64) as usize;
    match random.below(17) {
        0 => String::new(),
        1 => "-".into(),
        2 => format!("+{old}"),
        3 => format!("-{old}"),
        4 => old.to_lowercase(),
        5 => old.to_uppercase(),
        6 => format!("{old}0"),
        7 => old.chars().skip(1).collect(),
        8..=9 => "18446744073709551615".into(),
        10 => random.pick(&["2", "01", "00", "X", "v", "g", "VG", "VV", "simplexx", "Simplex"]).into(),
        11 => format!("0x{old}"),
        12..=14 => random.pick(&LARGE).into(),
        15 => old.chars().enumerate().map(|(i, c)| if i == at { 'G' } else { c }).collect(),
        _ => old.chars().enumerate().map(|(i, c)| if i == at { 'é' } else { c }).collect(),
    }
}

fn one_field(random: &mut Random, line: &str) -> String {
    let mut fields: Vec<String> = line.split(' ').map(String::from).collect();
    let at = random.below(fields.len() as u64) as usize;
    fields[at] = field(random, &fields[at]);
    fields.join(" ")
}

// A byte put in at any place.
fn one_more(random: &mut Random, line: &str) -> String {
    let at = random.below(line.len() as u64 + 1) as usize;
    let byte = random.pick(&[" ", " ", "\t", "\r", "0", "a", "\u{1}", "\u{7F}"]);
    format!("{}{byte}{}", &line[..at], &line[at..])
}

// `line` is ASCII.
pub fn spoilt(random: &mut Random, line: &str) -> String {
    match random.below(14) {
        0 => String::new(),
        1 => format!("{line} "),
        2 => format!(" {line}"),
        3 => format!("{line}\r"),
        4 => line.replacen(' ', "  ", 1),
        5 => line.replacen(' ', "\t", 1),
        6 => format!("{line} {}", random.pick(&["0", "1", "3FF0000000000000", "3FF000000000000", "V"])),
        7 => line.rsplit_once(' ').map_or(String::new(), |(head, _)| head.into()),
        8..=9 => one_more(random, line),
        _ => one_field(random, line),
    }
}
