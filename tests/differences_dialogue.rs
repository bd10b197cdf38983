// Writes the dialogue that the program test_differences replays. Every question and every coordinate of a gradient in
// it comes from the Rust's `central_difference_gradient` over an objective whose calls are recorded; which reply an answer
// gets is decided here by 01's rules in plain form. tests/README.md says how to build and run it.
//
// A row is hexadecimal words with one space between: the operation, two numbers, how many words follow, and these.
// 0 0 0 k point: a start. 1 number kind k words: an answer. 2 field index 1 word: a field of the kept record is set.
// Behind a start or an answer stands the reply, as 0 number kind n point (a question), 1 0 0 n gradient (an end) or
// 2 number detail 0 (a refusal), and then 1 where the record must be as it was or else 0, fevals and gevals.
use std::hint::black_box;
use tsecon_optim::{central_difference_gradient, FnObjective};

const MOST: u64 = 40_000_000_000;
const DIFFERENCES: u64 = 5;
const NAN: u64 = 0x7FF8_0000_0000_0000;
const NANS: [u64; 3] = [NAN, 0xFFF8_0000_0000_0000, 0x7FF0_0000_0000_0001];
const V: u64 = b'V' as u64;
const G: u64 = b'G' as u64;

// Fields that a row can set.
const ACCEPTED: u64 = 0;
const JOB: u64 = 1;
const N: u64 = 2;
const FEVALS: u64 = 3;
const GEVALS: u64 = 4;
const AT: u64 = 5;
const FORWARD: u64 = 6;
const VALUE: u64 = 7;
const X: u64 = 8;
const GRADIENT: u64 = 9;

// A run of the Rust: the point and the value of each call, and what it returned.
struct Run {
    calls: Vec<(Vec<f64>, f64)>,
    gradient: Vec<f64>,
}

fn rust(x: &[f64], value: &dyn Fn(usize, &[f64]) -> f64) -> Run {
    let mut calls = Vec::new();
    let mut f = FnObjective::new(|p: &[f64]| {
        let v = black_box(value(calls.len(), p));
        calls.push((p.to_vec(), v));
        v
    });
    let gradient = central_difference_gradient(&mut f, x);
    Run { calls, gradient }
}

// One pattern for every NaN: its bits may turn on how the Rust was compiled.
fn bits(v: f64) -> u64 {
    if v.is_nan() { NAN } else { v.to_bits() }
}

fn all_bits(list: &[f64]) -> Vec<u64> {
    list.iter().map(|&v| bits(v)).collect()
}

#[derive(PartialEq, Debug)]
enum Reply {
    Question(u64, Vec<u64>),
    End(Vec<u64>),
    Refusal(u64),
}

fn words(list: &[u64]) -> String {
    list.iter().map(|w| format!(" {w:016X}")).collect()
}

impl Reply {
    fn text(&self) -> String {
        match self {
            Reply::Question(number, x) => format!("0 {number:X} {V:X} {:X}{}", x.len(), words(x)),
            Reply::End(g) => format!("1 0 0 {:X}{}", g.len(), words(g)),
            Reply::Refusal(number) => format!("2 {number:X} 0 0"),
        }
    }
}

// The record, and the rows so far.
struct Dialogue {
    accepted: u64,
    job: u64,
    n: u64,
    fevals: u64,
    gevals: u64,
    at: u64,
    forward: bool,
    value: f64,
    x: [f64; 16],
    g: [f64; 16],
    rows: Vec<String>,
}

impl Dialogue {
    fn row(&mut self, asked: String, reply: &Reply, unchanged: bool) {
        let end = format!("{:X} {:X} {:X}", unchanged as u64, self.fevals, self.gevals);
        self.rows.push(format!("{asked} {} {end}", reply.text()));
    }

    // What stands: the end, or the next call that the Rust makes.
    fn standing(&self) -> Reply {
        let (n, at) = (self.n as usize, self.at as usize);
        if at == n {
            return Reply::End(all_bits(&self.g[..n]));
        }
        let run = rust(&self.x[..n], &|_, _| 0.0);
        Reply::Question(self.accepted + 1, all_bits(&run.calls[2 * at + self.forward as usize].0))
    }

    // Refusal 1.
    fn out_of_range(&self) -> bool {
        self.job != DIFFERENCES
            || self.n > 16
            || self.at > self.n
            || [self.accepted, self.fevals, self.gevals].iter().any(|&count| count > MOST)
    }

    fn accept(&mut self, v: f64) {
        let i = self.at as usize;
        if self.forward {
            let told = self.value;
            let run = rust(&self.x[..self.n as usize], &|call, _| if call == 2 * i { told } else { v });
            self.g[i] = run.gradient[i];
            self.at += 1;
        }
        self.value = if self.forward { 0.0 } else { v };
        self.forward = !self.forward;
        self.accepted += 1;
        self.fevals += 1;
    }

    // 01: a start of differences meets 2 alone; a refused start leaves a record of zeros.
    fn start(&mut self, point: &[u64]) -> Reply {
        let refused = point.len() > 16;
        (self.accepted, self.fevals, self.gevals, self.at) = (0, 0, 0, 0);
        (self.forward, self.value, self.x, self.g) = (false, 0.0, [0.0; 16], [0.0; 16]);
        self.job = if refused { 0 } else { DIFFERENCES };
        self.n = if refused { 0 } else { point.len() as u64 };
        let reply = if refused {
            Reply::Refusal(2)
        } else {
            for (to, &from) in self.x.iter_mut().zip(point) {
                *to = f64::from_bits(from);
            }
            self.standing()
        };
        self.row(format!("0 0 0 {:X}{}", point.len(), words(point)), &reply, false);
        reply
    }

    // 01: "an answer [meets] 1, then the repeat rule, then 15 to 17"; before the first acceptance no number is a repeat.
    fn answer(&mut self, number: u64, kind: u64, told: &[u64]) -> Reply {
        let mut unchanged = true;
        let reply = if self.out_of_range() {
            Reply::Refusal(1)
        } else if self.accepted > 0 && number == self.accepted {
            self.standing()
        } else if self.at == self.n {
            Reply::Refusal(15)
        } else if number != self.accepted + 1 {
            Reply::Refusal(16)
        } else if kind != V || told.len() != 1 {
            Reply::Refusal(17)
        } else {
            self.accept(f64::from_bits(told[0]));
            unchanged = false;
            self.standing()
        };
        self.row(format!("1 {number:X} {kind:X} {:X}{}", told.len(), words(told)), &reply, unchanged);
        reply
    }

    fn tell(&mut self, v: f64) -> Reply {
        self.answer(self.accepted + 1, V, &[bits(v)])
    }

    // Sets a field, and returns what it was.
    fn forge(&mut self, field: u64, index: u64, word: u64) -> u64 {
        self.rows.push(format!("2 {field:X} {index:X} 1 {word:X}"));
        let number = match field {
            ACCEPTED => &mut self.accepted,
            JOB => &mut self.job,
            N => &mut self.n,
            FEVALS => &mut self.fevals,
            GEVALS => &mut self.gevals,
            AT => &mut self.at,
            FORWARD => {
                let old = self.forward as u64;
                self.forward = word == 1;
                return old;
            }
            _ => {
                let value = match field {
                    VALUE => &mut self.value,
                    X => &mut self.x[index as usize],
                    _ => &mut self.g[index as usize],
                };
                return std::mem::replace(value, f64::from_bits(word)).to_bits();
            }
        };
        std::mem::replace(number, word)
    }

    // A whole run of the Rust, told to the engine call by call.
    fn whole(&mut self, x: &[f64], value: &dyn Fn(usize, &[f64]) -> f64) {
        let run = rust(x, value);
        let mut reply = self.start(&x.iter().map(|v| v.to_bits()).collect::<Vec<_>>());
        for (i, (point, v)) in run.calls.iter().enumerate() {
            assert_eq!(reply, Reply::Question(i as u64 + 1, all_bits(point)));
            reply = self.tell(*v);
        }
        assert_eq!(reply, Reply::End(all_bits(&run.gradient)));
    }

    // Numbers that are the repeat's, the open question's, or neither, each with right and wrong forms; none is accepted.
    fn disturb(&mut self) {
        let one = 1f64.to_bits();
        let last = self.accepted;
        let mut numbers = vec![0, last.saturating_sub(1), last, last + 1, last + 2, u64::MAX];
        numbers.dedup();
        for number in numbers {
            for (kind, told) in [(V, vec![one]), (V, vec![]), (V, vec![one; 2]), (G, vec![one]), (0, vec![NAN; 17])] {
                let taken = number == self.accepted + 1 && kind == V && told.len() == 1;
                if !taken || self.at == self.n || self.out_of_range() {
                    self.answer(number, kind, &told);
                }
            }
        }
    }

    // A field set, an answer of each sort, and the field set back: where the record was refused, the fit goes on.
    fn refuse(&mut self, field: u64, word: u64) {
        let old = self.forge(field, 0, word);
        assert!(self.out_of_range());
        self.answer(self.accepted, V, &[0]);
        self.answer(self.accepted.wrapping_add(1), V, &[0]);
        self.forge(field, 0, old);
    }
}

fn runs(d: &mut Dialogue) {
    let (max, tiny) = (f64::MAX, f64::from_bits(1));
    let squares = |_: usize, p: &[f64]| p.iter().map(|v| v * v).sum::<f64>();
    let valley = |_: usize, p: &[f64]| 100.0 * (p[1] - p[0] * p[0]).powi(2) + (1.0 - p[0]).powi(2);
    for x in [1.5, -0.75, 0.0, -0.0, 1e300, max, -max, tiny, -tiny, 2.5e-310, f64::INFINITY, f64::NEG_INFINITY] {
        d.whole(&[x], &squares);
    }
    for x in NANS {
        d.whole(&[f64::from_bits(x)], &squares);
    }
    let inf = f64::INFINITY;
    let pairs = [(inf, 1.0), (1.0, inf), (inf, inf), (-inf, inf), (0.0, -0.0), (-0.0, 0.0), (max, -max), (tiny, -tiny), (1.0, 1.0)];
    for (a, b) in pairs {
        d.whole(&[0.25], &|call, _| if call == 0 { a } else { b });
    }
    d.whole(&[], &squares);
    d.whole(&[-1.2, 1.0], &valley);
    d.whole(&[max, -tiny], &valley);
    d.whole(&[f64::NAN, 1e-5], &|call, _| if call == 2 { f64::NAN } else { call as f64 });
    d.whole(&[-1.2, 1e17, -0.0], &squares);
    d.whole(&[1e308, -1e308, 3.0], &squares);
    let wide: Vec<f64> = (0..16).map(|i| (i as f64 - 7.5) * 10f64.powi(3 * i - 20)).collect();
    d.whole(&wide, &squares);
    let near: Vec<f64> = (0..16).map(|i| 1.0 + (i as f64) / 7.0).collect();
    d.whole(&near, &|_, p| p.iter().enumerate().map(|(i, v)| (i as f64 + 1.0) * v * v * v).sum());
}

// NaN patterns as told values, in either place.
fn told_nans(d: &mut Dialogue) {
    for nan in NANS {
        for at in 1..3 {
            d.start(&[2f64.to_bits()]);
            d.answer(1, V, &[if at == 1 { nan } else { 0 }]);
            d.answer(2, V, &[if at == 2 { nan } else { 0 }]);
        }
    }
}

fn refused_starts(d: &mut Dialogue) {
    for k in [17, 18, 32] {
        d.start(&vec![1f64.to_bits(); k]);
        d.answer(0, V, &[0]);
        d.answer(1, V, &[0]);
    }
    d.start(&[NAN; 17]);
}

fn answers_out_of_turn(d: &mut Dialogue) {
    d.start(&[]);
    d.disturb();
    d.start(&[1f64.to_bits(), 2f64.to_bits()]);
    d.disturb();
    d.tell(3.0);
    d.disturb();
    d.tell(f64::NAN);
    d.tell(-1.0);
    d.disturb();
    d.tell(f64::INFINITY);
    d.disturb();
}

fn forged(d: &mut Dialogue) {
    d.start(&[1f64.to_bits(), 2f64.to_bits(), 3f64.to_bits()]);
    d.tell(1.0);
    d.tell(2.0);
    d.tell(3.0);
    for (field, words) in [
        (ACCEPTED, vec![MOST + 1, u64::MAX]),
        // 1 to 4 are left out: they are to be the marks of other jobs.
        (JOB, vec![0, 6, u64::MAX]),
        (N, vec![0, 17, u64::MAX]),
        (FEVALS, vec![MOST + 1, u64::MAX]),
        (GEVALS, vec![MOST + 1, u64::MAX]),
        (AT, vec![4, 16, 17, u64::MAX]),
    ] {
        for word in words {
            d.refuse(field, word);
        }
    }
    d.tell(4.0);
    d.tell(5.0);
    d.tell(6.0);
    d.tell(7.0);
}

// Records that no run returns but that are in range: the reply is a function of what stands there.
fn forged_in_range(d: &mut Dialogue) {
    let start = [1f64.to_bits(), 2f64.to_bits(), 3f64.to_bits()];
    for (field, index, word) in [
        (ACCEPTED, 0, 0),
        (ACCEPTED, 0, MOST),
        (FEVALS, 0, MOST),
        (FEVALS, 0, 0),
        (GEVALS, 0, MOST),
        (N, 0, 1),
        (N, 0, 16),
        (AT, 0, 0),
        (AT, 0, 2),
        (AT, 0, 3),
        (FORWARD, 0, 0),
        (VALUE, 0, NAN),
        (VALUE, 0, f64::NEG_INFINITY.to_bits()),
        (X, 1, (-1e300f64).to_bits()),
        (X, 2, f64::INFINITY.to_bits()),
        (GRADIENT, 0, NAN),
    ] {
        d.start(&start);
        d.tell(1.0);
        d.tell(-2.0);
        d.tell(3.0);
        d.forge(field, index, word);
        d.answer(d.accepted, G, &[]);
        d.answer(d.accepted + 2, V, &[0]);
        d.tell(0.5);
        d.tell(0.25);
        d.answer(d.accepted, V, &[NAN]);
    }
    d.start(&start);
    d.forge(N, 0, 0);
    d.answer(0, V, &[0]);
    d.answer(1, V, &[0]);
}

fn main() {
    let c = black_box(f64::EPSILON).cbrt().to_bits();
    assert_eq!(c, 0x3ED9_65FE_A53D_6E3D, "01: where `cbrt` gives other bits, the Rust is to be run with c");
    let mut d = Dialogue {
        accepted: 0,
        job: 0,
        n: 0,
        fevals: 0,
        gevals: 0,
        at: 0,
        forward: false,
        value: 0.0,
        x: [0.0; 16],
        g: [0.0; 16],
        rows: Vec::new(),
    };
    runs(&mut d);
    told_nans(&mut d);
    refused_starts(&mut d);
    answers_out_of_turn(&mut d);
    forged(&mut d);
    forged_in_range(&mut d);
    for row in d.rows {
        println!("{row}");
    }
}
