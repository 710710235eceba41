//! Two builds of the library, call by call: here by there, from one run. Below 1 the build here is
//! faster. It starts the two programs that it is given (calls.rs, each over its build) again and
//! again, since where a program comes to lie in memory matters too, and asks them in turns.

use std::io::{BufRead, BufReader, Write};
use std::process::{Child, ChildStdout, Command, ExitCode, Stdio};

/// How often both are started, and how many turns each call has each time.
const STARTS: usize = 9;
const TURNS: usize = 15;
/// A turn takes about so many seconds: long for the clock, short for the machine.
const TURN: f64 = 0.0005;

/// A running program over one build.
struct Build {
    child: Child,
    answers: BufReader<ChildStdout>,
    names: Vec<String>,
}

impl Build {
    fn start(program: &str) -> Build {
        let mut command = Command::new(program);
        let mut child =
            command.stdin(Stdio::piped()).stdout(Stdio::piped()).spawn().expect("the program");
        let answers = BufReader::new(child.stdout.take().expect("a pipe"));
        let mut build = Build { child, answers, names: Vec::new() };
        loop {
            match build.line() {
                name if name.is_empty() => return build,
                name => build.names.push(name),
            }
        }
    }

    fn line(&mut self) -> String {
        let mut line = String::new();
        self.answers.read_line(&mut line).expect("an answer");
        line.trim_end().to_string()
    }

    fn seconds(&mut self, name: &str, times: usize) -> f64 {
        let asked = self.child.stdin.as_mut().expect("a pipe");
        writeln!(asked, "{name} {times}").expect("the program runs");
        self.line().parse().expect("seconds")
    }
}

/// Its standard input is closed, so that it ends.
impl Drop for Build {
    fn drop(&mut self) {
        let _ = self.child.wait();
    }
}

fn main() -> ExitCode {
    let programs: Vec<String> = std::env::args().skip(1).collect();
    let [here, there] = &programs[..] else {
        eprintln!("against HERE THERE");
        return ExitCode::from(2);
    };
    let names = common(here, there);
    let mut ratios = vec![Vec::new(); names.len()];
    for _ in 0..STARTS {
        let (mut a, mut b) = (Build::start(here), Build::start(there));
        for (name, ratios) in names.iter().zip(&mut ratios) {
            measure(name, &mut a, &mut b, ratios);
        }
    }
    println!("here / there  middle half    call");
    for (name, ratios) in names.iter().zip(ratios) {
        let [low, middle, high] = quartiles(ratios);
        println!("{middle:>12.3}  {low:.3} to {high:.3}  {name}");
    }
    ExitCode::SUCCESS
}

/// What both can time. What only one can is named.
fn common(here: &str, there: &str) -> Vec<String> {
    let names = |program| Build::start(program).names.clone();
    let (here, there) = (names(here), names(there));
    let alone = |names: &[String], others: &[String], which: &str| {
        for name in names.iter().filter(|name| !others.contains(name)) {
            println!("only {which}: {name}");
        }
    };
    alone(&here, &there, "here");
    alone(&there, &here, "there");
    here.into_iter().filter(|name| there.contains(name)).collect()
}

fn measure(name: &str, a: &mut Build, b: &mut Build, ratios: &mut Vec<f64>) {
    let once = (0..3).map(|_| a.seconds(name, 1).max(b.seconds(name, 1)));
    let times = (TURN / once.fold(f64::INFINITY, f64::min)).ceil() as usize;
    for turn in 0..TURNS {
        let (x, y) = if turn % 2 == 0 {
            let x = a.seconds(name, times);
            (x, b.seconds(name, times))
        } else {
            let y = b.seconds(name, times);
            (a.seconds(name, times), y)
        };
        ratios.push(x / y);
    }
}

fn quartiles(mut values: Vec<f64>) -> [f64; 3] {
    values.sort_by(f64::total_cmp);
    [1, 2, 3].map(|k| values[k * (values.len() - 1) / 4])
}
