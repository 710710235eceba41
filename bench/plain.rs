//! The plan program in plain Rust, by the same rules: packing looks back, sides are found by a walk,
//! labels are searched one by one. Only for the speed table.

mod sheet;

use std::io::{Read, Write};

struct Net<'a> {
    n: usize,
    t: &'a sheet::Tables,
}

impl Net<'_> {
    fn guard(&self, i: usize, j: usize) -> u8 {
        self.t.guards[128 * i + j]
    }

    // The lowest start of path k after those placed.
    fn lowest(&self, placed: &[usize], starts: &[u16; 128], k: usize) -> u16 {
        let asked = |&j: &usize| {
            if self.guard(k, j) == 255 {
                1
            } else {
                starts[j] + self.t.widths[j] + self.guard(k, j) as u16
            }
        };
        placed.iter().map(asked).max().unwrap_or(1).max(1)
    }

    fn pack(&self, order: &[usize], starts: &mut [u16; 128]) -> u16 {
        let mut highest = 0;
        for p in 0..order.len() {
            let k = order[p];
            starts[k] = self.lowest(&order[..p], starts, k);
            highest = highest.max(starts[k] + self.t.widths[k] - 1);
        }
        highest
    }

    // The low side and then the high side by number, if there are two sides.
    fn two_sided(&self) -> Option<Vec<usize>> {
        let mut side = vec![None; self.n];
        for root in 0..self.n {
            if side[root].is_some() {
                continue;
            }
            side[root] = Some(false);
            let mut open = vec![root];
            while let Some(i) = open.pop() {
                for j in (0..self.n).filter(|&j| self.guard(i, j) != 255) {
                    match side[j] {
                        None => {
                            side[j] = side[i].map(|s: bool| !s);
                            open.push(j);
                        }
                        s if s == side[i] => return None,
                        _ => {}
                    }
                }
            }
        }
        let of = |high: bool| (0..self.n).filter(|&k| side[k] == Some(high)).collect::<Vec<_>>();
        Some([of(false), of(true)].concat())
    }

    fn greedy(&self) -> Vec<usize> {
        let (mut order, mut starts) = (Vec::new(), [0u16; 128]);
        while order.len() < self.n {
            let next = (0..self.n)
                .filter(|k| !order.contains(k))
                .min_by_key(|&k| (self.lowest(&order, &starts, k), k))
                .unwrap();
            starts[next] = self.lowest(&order, &starts, next);
            order.push(next);
        }
        order
    }

    fn improve(&self, order: &mut Vec<usize>, starts: &mut [u16; 128]) {
        let mut state = 1u32;
        let mut draw = || {
            state = state.wrapping_mul(1664525).wrapping_add(1013904223);
            (state >> 16) as usize * self.n >> 16
        };
        let mut highest = self.pack(order, starts);
        for _ in 0..1000 {
            let (a, b) = (draw(), draw());
            order.swap(a, b);
            let h = self.pack(order, starts);
            if h < highest {
                highest = h;
            } else {
                order.swap(a, b);
            }
        }
    }
}

fn main() {
    let mut text = Vec::new();
    std::io::stdin().read_to_end(&mut text).expect("standard input");
    let out = match sheet::read(&text) {
        Err((number, line)) => format!("refused {} line {}\n", number, line).into_bytes(),
        Ok(mut t) => {
            let mut starts = [0u16; 128];
            {
                let net = Net { n: t.n, t: &t };
                let order = net.two_sided().unwrap_or_else(|| {
                    let mut order = net.greedy();
                    net.improve(&mut order, &mut starts);
                    order
                });
                starts = [0; 128];
                net.pack(&order, &mut starts);
            }
            t.starts = starts;
            let mut out = Vec::new();
            sheet::write(&t, &mut out).ok().expect("tables that were read");
            out
        }
    };
    std::io::stdout().write_all(&out).expect("standard output");
}
