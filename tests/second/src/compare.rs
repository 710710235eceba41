//! One comparison: the same call made of the library and of this program, on copies of the
//! same tables; then number, place, shortfall, other numbers and the whole of every lent table.

use crate::calls::{self, Answer};
use crate::ffi::{self, Cell, Lent};
use crate::net::Network;
use crate::order;
use crate::sheet;
use std::fmt::Write as _;

/// The calls, the plan program and the program ask.
#[derive(Clone, Copy, Debug, PartialEq, Eq)]
pub enum Call {
    Judge,
    Pack,
    Press,
    TwoSides,
    Plan,
    Improve,
    Better,
    Floor,
    Why,
    Read,
    Write,
    Program,
    Ask,
    Centre,
    OrderWrite,
    OrderRead,
}

pub const CALLS: [(Call, &str); 16] = [
    (Call::Judge, "judge"),
    (Call::Pack, "pack"),
    (Call::Press, "press"),
    (Call::TwoSides, "two_sides"),
    (Call::Plan, "plan"),
    (Call::Improve, "improve"),
    (Call::Better, "better"),
    (Call::Floor, "floor"),
    (Call::Why, "why"),
    (Call::Read, "read"),
    (Call::Write, "write"),
    (Call::Program, "program"),
    (Call::Ask, "ask"),
    (Call::Centre, "centre"),
    (Call::OrderWrite, "order_write"),
    (Call::OrderRead, "order_read"),
];

impl Call {
    pub fn name(self) -> &'static str {
        CALLS[self as usize].1
    }
}

/// Everything that any call is lent or told. Each call takes its part.
#[derive(Clone, Default)]
pub struct Case {
    pub n: usize,
    pub widths: Vec<u16>,
    pub guards: Vec<u8>,
    pub starts: Vec<u16>,
    pub order: Vec<u8>,
    /// The second of two orders.
    pub second: Vec<u8>,
    /// A floor's list.
    pub list: Vec<u8>,
    /// The path that is asked about, and the table for its chain.
    pub path: usize,
    pub chain: Vec<u8>,
    pub seed: u32,
    pub rounds: usize,
    pub labels: Vec<u8>,
    /// The sheet to read, or the room to write it in.
    pub text: Vec<u8>,
    /// The anchor of an order sheet, and of the block whose centre is asked for.
    pub anchor: i32,
    /// That block's start and width.
    pub block: [usize; 2],
}

impl Case {
    /// The network of a case whose tables are known to be right.
    pub fn network(&self) -> Network {
        calls::network(self.n, &self.widths, &self.guards).expect("a network without a fault")
    }

    /// The starts of the n paths.
    pub fn plan(&self) -> Vec<usize> {
        self.starts[..self.n].iter().map(|&s| usize::from(s)).collect()
    }

    /// The part of the case that a call takes, in full.
    fn show(&self, call: Call) -> String {
        let mut out = format!("  n {}, seed {}, rounds {}\n", self.n, self.seed, self.rounds);
        let tables: &[&str] = match call {
            Call::Judge | Call::Press => &["widths", "guards", "starts"],
            Call::Pack | Call::Plan | Call::Improve => &["widths", "guards", "order", "starts"],
            Call::TwoSides => &["widths", "guards", "order"],
            Call::Better => &["widths", "guards", "order", "second"],
            Call::Floor => &["widths", "guards", "list"],
            Call::Why => &["path", "widths", "guards", "starts", "chain"],
            Call::Read | Call::Write => &["text", "labels", "widths", "guards", "starts"],
            Call::Program | Call::Ask => &["text"],
            Call::Centre => &["anchor", "block"],
            Call::OrderWrite | Call::OrderRead => {
                &["anchor", "text", "labels", "widths", "guards", "starts"]
            }
        };
        for name in tables {
            let _ = match *name {
                "widths" => writeln!(out, "  widths {}", runs(&self.widths)),
                "guards" => writeln!(out, "  guards {}", runs(&self.guards)),
                "starts" => writeln!(out, "  starts {}", runs(&self.starts)),
                "order" => writeln!(out, "  order {}", runs(&self.order)),
                "second" => writeln!(out, "  second {}", runs(&self.second)),
                "list" => writeln!(out, "  list {}", runs(&self.list)),
                "path" => writeln!(out, "  path {}", self.path),
                "chain" => writeln!(out, "  chain {}", runs(&self.chain)),
                "labels" => writeln!(out, "  labels {}", bytes(&self.labels)),
                "anchor" => writeln!(out, "  anchor {}", self.anchor),
                "block" => writeln!(out, "  start {}, width {}", self.block[0], self.block[1]),
                _ => writeln!(out, "  text {}", bytes(&self.text)),
            };
        }
        out
    }
}

/// Bytes that are mostly text: their number, and the bytes with the unprintable ones escaped.
fn bytes(text: &[u8]) -> String {
    format!("({}): \"{}\"", text.len(), text.escape_ascii())
}

/// A table in short: its length, and its cells with `value*times` for repeats.
pub fn runs<T: Cell>(cells: &[T]) -> String {
    let mut out = format!("({}):", cells.len());
    let mut at = 0;
    while at < cells.len() {
        let times = cells[at..].iter().take_while(|&&c| c == cells[at]).count();
        let _ = match times {
            1 => write!(out, " {}", cells[at]),
            _ => write!(out, " {}*{}", cells[at], times),
        };
        at += times;
    }
    out
}

/// Which calls are compared, and whether each is named before it is made.
pub struct Chosen {
    pub calls: Vec<Call>,
    pub trace: bool,
}

/// What was compared and what differed.
pub struct Tally<'a> {
    chosen: &'a Chosen,
    /// The group, seed and number of the piece of work, for the report.
    pub place: String,
    /// Networks or sheets.
    pub cases: u64,
    /// Comparisons of each call.
    pub calls: [u64; CALLS.len()],
    /// The numbers that each call had to answer, so that none goes untried.
    pub numbers: [[u64; NUMBERS]; CALLS.len()],
    /// Brute-force checks of what the library answered.
    pub checks: u64,
    pub different: u64,
    pub shown: Vec<String>,
}

/// Numbers 0 to 17.
pub const NUMBERS: usize = 18;

/// Differences printed in full.
const SHOWN: usize = 5;

impl<'a> Tally<'a> {
    pub fn new(chosen: &'a Chosen, place: String) -> Tally<'a> {
        Tally {
            chosen,
            place,
            cases: 0,
            calls: [0; CALLS.len()],
            numbers: [[0; NUMBERS]; CALLS.len()],
            checks: 0,
            different: 0,
            shown: Vec::new(),
        }
    }

    pub fn compared(&self) -> u64 {
        self.calls.iter().sum::<u64>() + self.checks
    }

    pub fn add(&mut self, other: Tally) {
        self.cases += other.cases;
        self.checks += other.checks;
        self.different += other.different;
        self.calls.iter_mut().zip(other.calls).for_each(|(to, from)| *to += from);
        let numbers = self.numbers.iter_mut().flatten();
        numbers.zip(other.numbers.iter().flatten()).for_each(|(to, from)| *to += from);
        self.shown.extend(other.shown);
        self.shown.truncate(SHOWN);
    }

    pub fn chooses(&self, call: Call) -> bool {
        self.chosen.calls.contains(&call)
    }

    /// Whether a call is compared; if every call is to be named first, names it.
    fn begin(&self, call: Call, case: &Case) -> bool {
        if self.chosen.trace && self.chooses(call) {
            eprintln!("{}: {}\n{}", self.place, call.name(), case.show(call));
        }
        self.chooses(call)
    }

    /// One comparison is over; the faults are those of the tables.
    fn end(&mut self, call: Call, case: &Case, got: Answer, want: Answer, faults: &[String]) {
        self.calls[call as usize] += 1;
        self.numbers[call as usize][want.number] += 1;
        if got != want || !faults.is_empty() {
            let mut what = format!("{} answered {got:?}, expected {want:?}\n", call.name());
            faults.iter().for_each(|fault| what += &format!("  {fault}\n"));
            self.differ(&what, &case.show(call));
        }
    }

    /// A check of the library's answers by brute force.
    pub fn check(&mut self, what: &str, case: &Case, holds: bool) {
        let call = if case.text.is_empty() { Call::Pack } else { Call::Write };
        self.check_of(call, what, case, holds);
    }

    /// The same, the case shown as the call takes it.
    pub fn check_of(&mut self, call: Call, what: &str, case: &Case, holds: bool) {
        self.checks += 1;
        if !holds {
            self.differ(&format!("does not hold: {what}\n"), &case.show(call));
        }
    }

    /// A program's output against its expected output.
    pub fn program(&mut self, call: Call, how: &str, case: &Case, got: &[u8], want: &[u8]) {
        self.calls[call as usize] += 1;
        self.numbers[call as usize][number_in(want)] += 1;
        if got != want {
            let (got, want) = (got.escape_ascii(), want.escape_ascii());
            let name = call.name();
            let what = format!("{name} ({how}) printed \"{got}\"\n  expected \"{want}\"\n");
            self.differ(&what, &case.show(call));
        }
    }

    fn differ(&mut self, what: &str, case: &str) {
        self.different += 1;
        if self.shown.len() < SHOWN {
            self.shown.push(format!("{}: {what}{case}", self.place));
        }
    }
}

/// The number that a program's output stands for.
fn number_in(output: &[u8]) -> usize {
    let text = String::from_utf8_lossy(output);
    let refused = text.strip_prefix("refused ").and_then(|rest| rest.split(' ').next());
    match refused.and_then(|digits| digits.parse().ok()) {
        Some(number) => number,
        None if text.contains(" clash: ") => 8,
        None if text.starts_with("No path ") => 6,
        None if text.starts_with("An anchor ") => 17,
        None => 0,
    }
}

/// The difference of a lent table from what it should hold, margins included, if there is one.
fn table<T: Cell>(name: &str, lent: &Lent<T>, want: &[T], faults: &mut Vec<String>) {
    if lent.contents() != want {
        let (got, want) = (runs(lent.contents()), runs(want));
        faults.push(format!("{name} holds {got}\n  expected {want}"));
    }
    if !lent.margins_kept() {
        faults.push(format!("memory outside of {name} was written"));
    }
}

/// What the library answered and left in the two tables that most calls write.
pub struct Outcome {
    pub answer: Answer,
    pub starts: Vec<u16>,
    pub order: Vec<u8>,
}

impl Outcome {
    /// The starts of the n paths.
    pub fn plan(&self, n: usize) -> Vec<usize> {
        self.starts.iter().take(n).map(|&s| usize::from(s)).collect()
    }

    /// The first n entries of the order.
    pub fn paths(&self, n: usize) -> Vec<usize> {
        self.order.iter().take(n).map(|&p| usize::from(p)).collect()
    }
}

/// The tables of a case, lent, and beside them a copy for this program's own call.
struct Lending {
    widths: Lent<u16>,
    guards: Lent<u8>,
    starts: Lent<u16>,
    order: Lent<u8>,
    own: Case,
}

impl Lending {
    fn new(c: &Case) -> Lending {
        Lending {
            widths: Lent::new(&c.widths),
            guards: Lent::new(&c.guards),
            starts: Lent::new(&c.starts),
            order: Lent::new(&c.order),
            own: Case { starts: c.starts.clone(), order: c.order.clone(), ..Case::default() },
        }
    }

    /// Compares the four tables: widths and guards with what was lent, starts and order with
    /// what this program's own call left.
    fn settle(self, t: &mut Tally, call: Call, c: &Case, got: Answer, want: Answer) -> Outcome {
        let mut faults = Vec::new();
        table("widths", &self.widths, &c.widths, &mut faults);
        table("guards", &self.guards, &c.guards, &mut faults);
        table("starts", &self.starts, &self.own.starts, &mut faults);
        table("order", &self.order, &self.own.order, &mut faults);
        t.end(call, c, got, want, &faults);
        let (starts, order) = (self.starts.contents().to_vec(), self.order.contents().to_vec());
        Outcome { answer: got, starts, order }
    }
}

pub fn judge(t: &mut Tally, c: &Case) -> Option<Outcome> {
    if !t.begin(Call::Judge, c) {
        return None;
    }
    let mut l = Lending::new(c);
    let got = ffi::judge(c.n, &mut l.widths, &mut l.guards, &mut l.starts);
    let want = calls::judge(c.n, &c.widths, &c.guards, &c.starts);
    Some(l.settle(t, Call::Judge, c, got, want))
}

pub fn pack(t: &mut Tally, c: &Case) -> Option<Outcome> {
    if !t.begin(Call::Pack, c) {
        return None;
    }
    let mut l = Lending::new(c);
    let got = ffi::pack(c.n, &mut l.widths, &mut l.guards, &mut l.order, &mut l.starts);
    let want = calls::pack(c.n, &c.widths, &c.guards, &c.order, &mut l.own.starts);
    Some(l.settle(t, Call::Pack, c, got, want))
}

pub fn press(t: &mut Tally, c: &Case) -> Option<Outcome> {
    if !t.begin(Call::Press, c) {
        return None;
    }
    let mut l = Lending::new(c);
    let got = ffi::press(c.n, &mut l.widths, &mut l.guards, &mut l.starts);
    let want = calls::press(c.n, &c.widths, &c.guards, &mut l.own.starts);
    Some(l.settle(t, Call::Press, c, got, want))
}

pub fn two_sides(t: &mut Tally, c: &Case) -> Option<Outcome> {
    if !t.begin(Call::TwoSides, c) {
        return None;
    }
    let mut l = Lending::new(c);
    let got = ffi::two_sides(c.n, &mut l.widths, &mut l.guards, &mut l.order);
    let want = calls::two_sides(c.n, &c.widths, &c.guards, &mut l.own.order);
    Some(l.settle(t, Call::TwoSides, c, got, want))
}

pub fn plan(t: &mut Tally, c: &Case) -> Option<Outcome> {
    if !t.begin(Call::Plan, c) {
        return None;
    }
    let mut l = Lending::new(c);
    let (order, starts) = (&mut l.order, &mut l.starts);
    let got = ffi::plan(c.n, &mut l.widths, &mut l.guards, order, starts, c.seed, c.rounds);
    let (order, starts) = (&mut l.own.order, &mut l.own.starts);
    let want = calls::plan(c.n, &c.widths, &c.guards, order, starts, c.seed, c.rounds);
    Some(l.settle(t, Call::Plan, c, got, want))
}

pub fn improve(t: &mut Tally, c: &Case) -> Option<Outcome> {
    if !t.begin(Call::Improve, c) {
        return None;
    }
    let mut l = Lending::new(c);
    let (order, starts) = (&mut l.order, &mut l.starts);
    let got = ffi::improve(c.n, &mut l.widths, &mut l.guards, order, starts, c.seed, c.rounds);
    let (order, starts) = (&mut l.own.order, &mut l.own.starts);
    let want = calls::improve(c.n, &c.widths, &c.guards, order, starts, c.seed, c.rounds);
    Some(l.settle(t, Call::Improve, c, got, want))
}

pub fn better(t: &mut Tally, c: &Case) -> Option<Outcome> {
    if !t.begin(Call::Better, c) {
        return None;
    }
    let mut l = Lending::new(c);
    let mut second = Lent::new(&c.second);
    let got = ffi::better(c.n, &mut l.widths, &mut l.guards, &mut l.order, &mut second);
    let which = calls::better(c.n, &c.widths, &c.guards, &c.order, &c.second);
    let want = Answer::new(which, 0, [0, 0]);
    Some(settle_with(t, Call::Better, c, l, ("second", &second, &c.second), got, want))
}

pub fn floor(t: &mut Tally, c: &Case) -> Option<Outcome> {
    if !t.begin(Call::Floor, c) {
        return None;
    }
    let mut l = Lending::new(c);
    let mut list = Lent::new(&c.list);
    let got = ffi::floor(c.n, &mut l.widths, &mut l.guards, &mut list);
    let want = calls::floor(c.n, &c.widths, &c.guards, &c.list);
    Some(settle_with(t, Call::Floor, c, l, ("list", &list, &c.list), got, want))
}

/// The library's chain comes back, its whole table.
pub fn why(t: &mut Tally, c: &Case) -> Option<(Answer, Vec<u8>)> {
    if !t.begin(Call::Why, c) {
        return None;
    }
    let mut l = Lending::new(c);
    let mut chain = Lent::new(&c.chain);
    let got = ffi::why(c.n, &mut l.widths, &mut l.guards, &mut l.starts, c.path, &mut chain);
    let mut own = c.chain.clone();
    let want = calls::why(c.n, &c.widths, &c.guards, &c.starts, c.path, &mut own);
    settle_with(t, Call::Why, c, l, ("chain", &chain, &own), got, want);
    Some((got, chain.contents().to_vec()))
}

/// Compares one table more, with what it should hold.
fn settle_with(
    t: &mut Tally, call: Call, c: &Case, l: Lending, more: (&str, &Lent<u8>, &[u8]), got: Answer,
    want: Answer,
) -> Outcome {
    let mut faults = Vec::new();
    table(more.0, more.1, more.2, &mut faults);
    for fault in faults {
        t.differ(&format!("{}: {fault}\n", call.name()), &c.show(call));
    }
    l.settle(t, call, c, got, want)
}

/// Reads the case's text. The library's tables come back as a case, if it reads at all.
pub fn read(t: &mut Tally, c: &Case) -> Option<(Answer, Case)> {
    if !t.begin(Call::Read, c) {
        return None;
    }
    let (mut text, mut labels) = (Lent::new(&c.text), Lent::new(&c.labels));
    let (mut widths, mut guards) = (Lent::new(&c.widths), Lent::new(&c.guards));
    let mut starts = Lent::new(&c.starts);
    let got = ffi::read(&mut text, &mut labels, &mut widths, &mut guards, &mut starts);
    let mut own = c.clone();
    let want =
        sheet::read(&c.text, &mut own.labels, &mut own.widths, &mut own.guards, &mut own.starts);
    let mut faults = Vec::new();
    table("text", &text, &c.text, &mut faults);
    table("labels", &labels, &own.labels, &mut faults);
    table("widths", &widths, &own.widths, &mut faults);
    table("guards", &guards, &own.guards, &mut faults);
    table("starts", &starts, &own.starts, &mut faults);
    t.end(Call::Read, c, got, want, &faults);
    own.n = got.more[0];
    own.labels = labels.contents().to_vec();
    own.widths = widths.contents().to_vec();
    own.guards = guards.contents().to_vec();
    own.starts = starts.contents().to_vec();
    Some((got, own))
}

/// Writes the case's tables into its text. The library's text comes back.
pub fn write(t: &mut Tally, c: &Case) -> Option<(Answer, Vec<u8>)> {
    if !t.begin(Call::Write, c) {
        return None;
    }
    let (mut text, mut labels) = (Lent::new(&c.text), Lent::new(&c.labels));
    let (mut widths, mut guards) = (Lent::new(&c.widths), Lent::new(&c.guards));
    let mut starts = Lent::new(&c.starts);
    let got = ffi::write(c.n, &mut labels, &mut widths, &mut guards, &mut starts, &mut text);
    let mut own = c.text.clone();
    let want = sheet::write(c.n, &c.labels, &c.widths, &c.guards, &c.starts, &mut own);
    let mut faults = Vec::new();
    table("text", &text, &own, &mut faults);
    table("labels", &labels, &c.labels, &mut faults);
    table("widths", &widths, &c.widths, &mut faults);
    table("guards", &guards, &c.guards, &mut faults);
    table("starts", &starts, &c.starts, &mut faults);
    t.end(Call::Write, c, got, want, &faults);
    Some((got, text.contents().to_vec()))
}

/// Both calls for the centre of the case's block; its number and the bits of the double are
/// compared. The library's double comes back.
pub fn centre(t: &mut Tally, c: &Case) -> Option<(usize, f64)> {
    if !t.begin(Call::Centre, c) {
        return None;
    }
    let [start, width] = c.block;
    let (number, double) = ffi::centre(c.anchor, start, width);
    let got = Answer::new(number, 0, [double.to_bits() as usize, 0]);
    t.end(Call::Centre, c, got, order::centre(c.anchor, start, width), &[]);
    Some((number, double))
}

/// Writes the case's order sheet into its text. The library's text comes back.
pub fn order_write(t: &mut Tally, c: &Case) -> Option<(Answer, Vec<u8>)> {
    if !t.begin(Call::OrderWrite, c) {
        return None;
    }
    let mut l = OrderLending::new(c);
    let mut own = c.text.clone();
    let want = order::write(c.anchor, c.n, &c.labels, &c.widths, &c.guards, &c.starts, &mut own);
    let (labels, widths, guards) = (&mut l.labels, &mut l.widths, &mut l.guards);
    let got = ffi::order_write(c.anchor, c.n, labels, widths, guards, &mut l.starts, &mut l.text);
    l.settle(t, Call::OrderWrite, c, (got, want), &c.starts, &own);
    Some((got, l.text.contents().to_vec()))
}

/// Reads the case's text as an order sheet beside its network. The library's starts come back.
pub fn order_read(t: &mut Tally, c: &Case) -> Option<(Answer, Vec<u16>)> {
    if !t.begin(Call::OrderRead, c) {
        return None;
    }
    let mut l = OrderLending::new(c);
    let mut own = c.starts.clone();
    let want = order::read(c.anchor, &c.text, c.n, &c.labels, &c.widths, &c.guards, &mut own);
    let (labels, widths, guards) = (&mut l.labels, &mut l.widths, &mut l.guards);
    let got = ffi::order_read(c.anchor, &mut l.text, c.n, labels, widths, guards, &mut l.starts);
    l.settle(t, Call::OrderRead, c, (got, want), &own, &c.text);
    Some((got, l.starts.contents().to_vec()))
}

/// The tables of an order sheet, lent.
struct OrderLending {
    labels: Lent<u8>,
    widths: Lent<u16>,
    guards: Lent<u8>,
    starts: Lent<u16>,
    text: Lent<u8>,
}

impl OrderLending {
    fn new(c: &Case) -> OrderLending {
        OrderLending {
            labels: Lent::new(&c.labels),
            widths: Lent::new(&c.widths),
            guards: Lent::new(&c.guards),
            starts: Lent::new(&c.starts),
            text: Lent::new(&c.text),
        }
    }

    /// Compares the tables: starts and text with what they should hold, the others with what was
    /// lent.
    fn settle(
        &self, t: &mut Tally, call: Call, c: &Case, (got, want): (Answer, Answer), starts: &[u16],
        text: &[u8],
    ) {
        let mut faults = Vec::new();
        table("labels", &self.labels, &c.labels, &mut faults);
        table("widths", &self.widths, &c.widths, &mut faults);
        table("guards", &self.guards, &c.guards, &mut faults);
        table("starts", &self.starts, starts, &mut faults);
        table("text", &self.text, text, &mut faults);
        t.end(call, c, got, want, &faults);
    }
}

/// Every call on one case, whatever is right or wrong in it.
pub fn all_calls(t: &mut Tally, c: &Case) {
    judge(t, c);
    pack(t, c);
    press(t, c);
    why(t, c);
    two_sides(t, c);
    plan(t, c);
    improve(t, c);
    better(t, c);
    floor(t, c);
    read(t, c);
    write(t, c);
    order_write(t, c);
    order_read(t, c);
}
