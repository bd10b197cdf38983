// Examples of bad input, by kind, and what the program prints for each: the table of docs/TRIED.md.

use crate::random::Random;
use crate::talks;
use std::process::ExitCode;

const ONE: &str = "3FF0000000000000";
const TWO: &str = "4000000000000000";
const OPTIONS: &str = "3FF0000000000000 3FF0000000000000 3FE0000000000000 - - 0 1";
const LONG: usize = 10_000_000;

// The kind, the input in words, and its bytes.
type Example = (&'static str, &'static str, Vec<u8>);

fn start() -> String {
    format!("simplex 1\n{OPTIONS}\n{ONE}\n")
}

// 01's sample, with one text in place of another.
fn sample(old: &str, new: &str) -> Vec<u8> {
    let whole = format!("{}1 V {TWO}\n2 V {ONE}\n", start());
    assert!(whole.contains(old), "the sample has {old}");
    whole.replacen(old, new, 1).into_bytes()
}

fn bytes() -> Vec<Example> {
    const KIND: &str = "bytes of no form";
    let random = &mut Random::new(1);
    let crlf = String::from_utf8_lossy(&sample("", "")).replace('\n', "\r\n");
    let mut high = start().into_bytes();
    let last = high.len() - 2;
    high[last] = 0xFF;
    vec![
        (KIND, "1,000 random bytes", (0..1000).map(|_| random.next() as u8).collect()),
        (KIND, "the 256 bytes from 0 to 255", (0..=255).collect()),
        (KIND, "the byte FF for the last digit of line 3", high),
        (KIND, "a byte order mark first", sample("simplex", "\u{FEFF}simplex")),
        (KIND, "a carriage return before each line feed", crlf.into_bytes()),
        (KIND, "a tab for the first answer's first space", sample("\n1 V", "\n1\tV")),
        (KIND, "two spaces in the first answer", sample("\n1 V", "\n1  V")),
        (KIND, "a letter of the first answer's word in lower case", sample(&format!("V {TWO}"), "V c000000000000000")),
        (KIND, "the number of the first answer with a sign", sample("\n1 V", "\n+1 V")),
    ]
}

fn zeros() -> Vec<Example> {
    const KIND: &str = "binary zeros";
    let answer = format!("1 V {TWO}\n");
    vec![
        (KIND, "10^7 zeros", vec![0; LONG]),
        (KIND, "a zero for the space of line 1", sample("simplex 1", "simplex\01")),
        (KIND, "a zero behind the first answer's word", sample(&answer, &answer.replace('\n', "\0\n"))),
        (KIND, "a zero for the line feed of the first answer", sample(&answer, &answer.replace('\n', "\0"))),
        (KIND, "a zero behind the last line feed", [&sample("", "")[..], b"\0"].concat()),
    ]
}

fn cut() -> Vec<Example> {
    const KIND: &str = "cut lines";
    let all = sample("", "");
    let ends = crate::oracle::ends(&all);
    let upto = |line: usize, count: usize| all[..ends.get(line.wrapping_sub(2)).copied().unwrap_or(0) + count].to_vec();
    vec![
        (KIND, "nothing at all", Vec::new()),
        (KIND, "line 1 cut behind `simplex`", upto(1, 7)),
        (KIND, "the input cut behind line 1", upto(2, 0)),
        (KIND, "line 2 cut in its first word", upto(2, 5)),
        (KIND, "the input cut behind line 2", upto(3, 0)),
        (KIND, "line 3 cut in its word", upto(3, 5)),
        (KIND, "the first answer cut behind its number", upto(4, 1)),
        (KIND, "the first answer cut behind its kind", upto(4, 3)),
        (KIND, "the first answer cut in its word", upto(4, 15)),
        (KIND, "the first answer cut in its word, and its line feed kept", sample(&format!("1 V {TWO}"), "1 V 40000000")),
        (KIND, "an empty line before the first answer", sample("\n1 V", "\n\n1 V")),
        (KIND, "a line feed alone", b"\n".to_vec()),
    ]
}

fn open() -> Vec<Example> {
    const KIND: &str = "no final line feed";
    vec![
        (KIND, "on line 3", start().trim_end().into()),
        (KIND, "on the last answer", sample(&format!("2 V {ONE}\n"), &format!("2 V {ONE}"))),
        (KIND, "on a line of 10^7 letters", vec![b's'; LONG]),
    ]
}

fn lines() -> Vec<Example> {
    const KIND: &str = "lines again, swapped or left out";
    let (first, second) = (format!("1 V {TWO}\n"), format!("2 V {ONE}\n"));
    let both = format!("{first}{second}");
    vec![
        (KIND, "line 1 twice", sample("simplex 1\n", "simplex 1\nsimplex 1\n")),
        (KIND, "line 2 left out", sample(&format!("{OPTIONS}\n"), "")),
        (KIND, "the first answer twice", sample(&first, &first.repeat(2))),
        (KIND, "the first answer left out", sample(&first, "")),
        (KIND, "the answers swapped", sample(&both, &format!("{second}{first}"))),
        (KIND, "both answers twice", sample(&both, &both.repeat(2))),
        (KIND, "an answer behind the end", sample(&second, &format!("{second}3 V {ONE}\n"))),
        (KIND, "a line of no form, then the dialogue", sample("simplex 1", "?\nsimplex 1")),
    ]
}

fn long() -> Vec<Example> {
    const KIND: &str = "long lines";
    let words = |word: &str, count: usize| vec![word; count].join(" ");
    let many = LONG / 17;
    let wide = format!("\n1 V {}\n1 V", words(TWO, many));
    let (n, point) = (format!("simplex {many}\n"), format!("1\n{}\n1 V", words(ONE, many)));
    let far = String::from_utf8_lossy(&sample("simplex 1\n", &n)).replacen(&format!("1\n{ONE}\n1 V"), &point, 1);
    vec![
        (KIND, "line 1 of 10^7 letters", sample("simplex 1", &"s".repeat(LONG))),
        (KIND, "10^7 zeros before the n of line 1", sample("simplex 1", &format!("simplex {}1", "0".repeat(LONG)))),
        (KIND, "n of 2^64", sample("simplex 1", "simplex 18446744073709551616")),
        (KIND, "line 2 with 10^7 spaces behind it", sample(OPTIONS, &format!("{OPTIONS}{}", " ".repeat(LONG)))),
        (KIND, "line 3 of 10^7 digits", sample(&format!("1\n{ONE}\n"), &format!("1\n{}\n", "0".repeat(LONG)))),
        (KIND, "line 3 of 588,235 words, which are 10^7 bytes, and n 588,235", far.into_bytes()),
        (KIND, "the first answer with 588,235 words, then as it should be", sample("\n1 V", &wide)),
        (KIND, "10^7 zeros before the first answer's number", sample("\n1 V", &format!("\n{}1 V", "0".repeat(LONG)))),
    ]
}

fn row((kind, what, bytes): &Example, program: &str) -> Result<(), String> {
    let (_, replies) = talks::compare(program, bytes, None).map_err(|difference| format!("{kind}: {what}\n{difference}"))?;
    let printed: Vec<String> = replies.iter().map(|reply| format!("`{}`", reply.text)).collect();
    println!("| {kind} | {what} | {} |", if printed.is_empty() { "nothing".into() } else { printed.join("<br>") });
    Ok(())
}

// One row for each example, once the program has printed just that.
pub fn table(program: &str) -> ExitCode {
    println!("| Kind | Input | What the program prints |\n|---|---|---|");
    let examples = [bytes(), zeros(), cut(), open(), lines(), long()].concat();
    match examples.iter().try_for_each(|example| row(example, program)) {
        Ok(()) => ExitCode::SUCCESS,
        Err(difference) => {
            println!("differs: {difference}");
            ExitCode::FAILURE
        }
    }
}
