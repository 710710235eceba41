//! The program ask: what it has to print for its arguments and a sheet (RULES 26).

use crate::calls;
use crate::net::*;
use crate::order;
use crate::rules;
use crate::sheet;

/// What a sheet with a plan says.
struct Planned {
    n: usize,
    labels: Vec<u8>,
    widths: Vec<u16>,
    guards: Vec<u8>,
    starts: Vec<u16>,
}

/// One run. What is wrong with the arguments is said whatever the input is.
pub fn program(args: &[Vec<u8>], text: &[u8]) -> Vec<u8> {
    let args: Vec<&[u8]> = args.iter().map(|arg| arg.as_slice()).collect();
    let said = match args[..] {
        [b"why"] => Err("Say which path: why LABEL.".into()),
        [b"why", label] if !sheet::is_label(label) => {
            Err("A label has 1 to 8 capitals, digits or hyphens.".into())
        }
        [b"why", label] => Planned::read(text).and_then(|planned| planned.why(label)),
        [b"judge"] => Planned::read(text).and_then(|planned| planned.judge()),
        [b"order"] => Err("Say the anchor: order ANCHOR.".into()),
        [b"order", anchor] => match anchor_in(anchor) {
            None => Err("An anchor is a whole number, -1024 to 1024.".into()),
            Some(anchor) => Planned::read(text).and_then(|planned| planned.order(anchor)),
        },
        _ => Err("The words are why, judge and order.".into()),
    };
    let mut lines = said.unwrap_or_else(|line: String| vec![line]);
    lines.iter_mut().for_each(|line| line.push('\n'));
    lines.concat().into_bytes()
}

/// An anchor in range, written as an order sheet's n.
fn anchor_in(argument: &[u8]) -> Option<i32> {
    let range = -order::MAX_ANCHOR..=order::MAX_ANCHOR;
    let anchor = i32::try_from(order::signed(argument)?).ok()?;
    range.contains(&anchor).then_some(anchor)
}

/// The lines of an answer, or the one line that is said in its place.
type Said = Result<Vec<String>, String>;

impl Planned {
    /// The sheet is refused as the plan program refuses it; it may lack a plan.
    fn read(text: &[u8]) -> Result<Planned, String> {
        let mut p = Planned {
            n: 0,
            labels: vec![0; LABELS],
            widths: vec![0; PATHS],
            guards: vec![0; CELLS],
            starts: vec![0; PATHS],
        };
        let read = sheet::read(text, &mut p.labels, &mut p.widths, &mut p.guards, &mut p.starts);
        p.n = read.more[0];
        match read.number {
            0 if p.starts[..p.n].contains(&0) => Err("The sheet has no plan.".into()),
            0 => Ok(p),
            number => Err(format!("refused {number} line {}", read.place)),
        }
    }

    fn judge(&self) -> Said {
        let judged = calls::judge(self.n, &self.widths, &self.guards, &self.starts);
        self.clash(judged)?;
        let net = Network::from_tables(self.n, &self.widths, &self.guards);
        let starts: Vec<usize> = self.starts.iter().map(|&s| usize::from(s)).collect();
        let highest = rules::highest(&net, &starts);
        Ok(vec![format!("The plan is valid. Its highest slot is {highest}.")])
    }

    /// 8 comes before 6.
    fn why(&self, label: &[u8]) -> Said {
        let named = (0..self.n).find(|&path| self.label(path).as_bytes() == label);
        let mut chain = vec![0; PATHS];
        let path = named.unwrap_or(self.n);
        let told = calls::why(self.n, &self.widths, &self.guards, &self.starts, path, &mut chain);
        self.clash(told)?;
        if named.is_none() {
            return Err(format!("No path is called {}.", String::from_utf8_lossy(label)));
        }
        let chain: Vec<usize> = chain[..told.more[0]].iter().map(|&p| usize::from(p)).collect();
        let mut lines = vec![format!("{}.", self.block(path))];
        for two in chain.windows(2) {
            let guard = self.guards[cell(two[0], two[1])];
            lines.push(format!("Below it {}, and the guard is {guard}.", self.block(two[1])));
        }
        let last = self.label(chain[chain.len() - 1]);
        lines.push(match told.more[1] {
            0 if chain.len() == 1 => format!("{last} is in slot 1 and cannot come down."),
            0 => {
                let asked = self.label(path);
                format!("{last} is in slot 1, so {asked} cannot come down in this order.")
            }
            down => format!("{last} can come down {}.", slots(down)),
        });
        Ok(lines)
    }

    /// The order sheet of a valid plan.
    fn order(&self, anchor: i32) -> Said {
        self.clash(calls::judge(self.n, &self.widths, &self.guards, &self.starts))?;
        let mut room = vec![0; order::LONGEST_ORDER];
        let (labels, widths, guards) = (&self.labels, &self.widths, &self.guards);
        let written = order::write(anchor, self.n, labels, widths, guards, &self.starts, &mut room);
        assert_eq!(written.number, 0, "a plan that was read can be ordered");
        let sheet = String::from_utf8_lossy(&room[..written.more[0]]).into_owned();
        Ok(sheet.lines().map(String::from).collect())
    }

    /// With number 8: the labels of the pair, and how many slots are lacking.
    fn clash(&self, answer: calls::Answer) -> Result<(), String> {
        if answer.number != 8 {
            return Ok(());
        }
        let (i, j) = (answer.place / PATHS, answer.place % PATHS);
        Err(format!(
            "{} and {} clash: {} short.",
            self.label(i),
            self.label(j),
            slots(answer.short)
        ))
    }

    fn label(&self, path: usize) -> String {
        let bytes = &self.labels[LABEL * path..LABEL * (path + 1)];
        String::from_utf8_lossy(bytes).trim_end_matches('\0').into()
    }

    /// The slots of a path, from the first to the last.
    fn block(&self, path: usize) -> String {
        let (label, first) = (self.label(path), self.starts[path]);
        match self.widths[path] {
            1 => format!("{label} has slot {first}"),
            width => format!("{label} has slots {first} to {}", first + width - 1),
        }
    }
}

fn slots(count: usize) -> String {
    match count {
        1 => "1 slot".into(),
        _ => format!("{count} slots"),
    }
}
