//! A plain reader and writer of the sheet in Rust, by the same rules: what the library's are held
//! against. Labels are searched one by one.

#[derive(PartialEq)]
pub struct Tables {
    pub n: usize,
    pub labels: [u8; 1024],
    pub widths: [u16; 128],
    pub guards: [u8; 16384],
    pub starts: [u16; 128],
}

impl Tables {
    pub fn cleared() -> Tables {
        Tables { n: 0, labels: [0; 1024], widths: [0; 128], guards: [255; 16384], starts: [0; 128] }
    }

    pub fn label(&self, k: usize) -> &[u8] {
        let row = &self.labels[8 * k..8 * k + 8];
        &row[..row.iter().position(|&b| b == 0).unwrap_or(8)]
    }

    fn find(&self, label: &[u8], n: usize) -> Option<usize> {
        (0..n).find(|&k| self.label(k) == label)
    }
}

pub struct Reader<'a> {
    pub text: &'a [u8],
    pub line: usize,
}

pub type Refused = (usize, usize);

impl<'a> Reader<'a> {
    // The fields of the next line, or 11 where its form is wrong.
    pub fn fields<const F: usize>(&mut self) -> Result<[&'a [u8]; F], Refused> {
        self.line += 1;
        let end = self.text.iter().position(|&b| b == b'\n').ok_or((11, self.line))?;
        let (line, rest) = (&self.text[..end], &self.text[end + 1..]);
        self.text = rest;
        let mut fields = [&line[..0]; F];
        let mut parts = line.split(|&b| b == b' ');
        for field in &mut fields {
            *field = parts.next().ok_or((11, self.line))?;
        }
        if parts.next().is_some() {
            return Err((11, self.line));
        }
        Ok(fields)
    }

    pub fn label(&self, field: &'a [u8]) -> Result<&'a [u8], Refused> {
        let right = |b: &u8| b.is_ascii_digit() || b.is_ascii_uppercase() || *b == b'-';
        if (1..=8).contains(&field.len()) && field.iter().all(right) {
            Ok(field)
        } else {
            Err((11, self.line))
        }
    }

    pub fn number(&self, field: &[u8]) -> Result<usize, Refused> {
        let right = (1..=5).contains(&field.len())
            && field.iter().all(u8::is_ascii_digit)
            && (field.len() == 1 || field[0] != b'0');
        if right {
            Ok(field.iter().fold(0, |v, b| 10 * v + (b - b'0') as usize))
        } else {
            Err((11, self.line))
        }
    }

    pub fn count(&mut self, word: &[u8]) -> Result<usize, Refused> {
        let [w, c] = self.fields()?;
        if w != word {
            return Err((11, self.line));
        }
        self.number(c)
    }
}

pub fn read(text: &[u8]) -> Result<Tables, Refused> {
    let mut t = Tables::cleared();
    let mut r = Reader { text, line: 0 };
    let n = r.count(b"paths")?;
    if !(1..=128).contains(&n) {
        return Err((1, r.line));
    }
    for k in 0..n {
        let [l, w] = r.fields()?;
        let (label, width) = (r.label(l)?, r.number(w)?);
        if t.find(label, k).is_some() {
            return Err((12, r.line));
        }
        if !(1..=64).contains(&width) {
            return Err((3, r.line));
        }
        t.labels[8 * k..8 * k + label.len()].copy_from_slice(label);
        t.widths[k] = width as u16;
    }
    let m = r.count(b"guards")?;
    if m > 2000 {
        return Err((1, r.line));
    }
    for _ in 0..m {
        let [a, b, g] = r.fields()?;
        let (a, b, g) = (r.label(a)?, r.label(b)?, r.number(g)?);
        let (i, j) = match (t.find(a, n), t.find(b, n)) {
            (Some(i), Some(j)) if i != j => (i, j),
            _ => return Err((13, r.line)),
        };
        if t.guards[128 * i + j] != 255 {
            return Err((14, r.line));
        }
        if g > 32 {
            return Err((4, r.line));
        }
        t.guards[128 * i + j] = g as u8;
        t.guards[128 * j + i] = g as u8;
    }
    if !r.text.is_empty() {
        if r.count(b"starts")? != n {
            return Err((1, r.line));
        }
        for k in 0..n {
            let [l, s] = r.fields()?;
            let (label, start) = (r.label(l)?, r.number(s)?);
            if t.label(k) != label {
                return Err((13, r.line));
            }
            if !(1..=16384).contains(&start) {
                return Err((7, r.line));
            }
            t.starts[k] = start as u16;
        }
        if !r.text.is_empty() {
            return Err((11, r.line + 1));
        }
    }
    t.n = n;
    Ok(t)
}

pub fn put_number(text: &mut Vec<u8>, v: usize) {
    if v >= 10 {
        put_number(text, v / 10);
    }
    text.push(b'0' + (v % 10) as u8);
}

pub fn put_line(text: &mut Vec<u8>, words: &[&[u8]], v: usize) {
    for w in words {
        text.extend_from_slice(w);
        text.push(b' ');
    }
    put_number(text, v);
    text.push(b'\n');
}

// The tests of a network in their order: 1, 3, 4, 5.
pub fn test_network(t: &Tables) -> Result<(), Refused> {
    let n = t.n;
    if !(1..=128).contains(&n) {
        return Err((1, 0));
    }
    if let Some(k) = (0..n).find(|&k| !(1..=64).contains(&t.widths[k])) {
        return Err((3, k));
    }
    for i in 0..n {
        for j in 0..n {
            let g = t.guards[128 * i + j];
            if g != 255 && (i == j || g > 32) {
                return Err((4, 128 * i + j));
            }
        }
    }
    for i in 0..n {
        for j in i + 1..n {
            if t.guards[128 * i + j] != t.guards[128 * j + i] {
                return Err((5, 128 * i + j));
            }
        }
    }
    Ok(())
}

// The writer's tests in their order: those, 11, 12, 1 for pairs, 7.
fn test(t: &Tables) -> Result<(), Refused> {
    test_network(t)?;
    let n = t.n;
    let right = |b: &u8| b.is_ascii_digit() || b.is_ascii_uppercase() || *b == b'-';
    for k in 0..n {
        let label = t.label(k);
        if label.is_empty()
            || !label.iter().all(right)
            || t.labels[8 * k + label.len()..8 * k + 8].iter().any(|&b| b != 0)
        {
            return Err((11, k));
        }
    }
    if let Some(k) = (0..n).find(|&k| t.find(t.label(k), k).is_some()) {
        return Err((12, k));
    }
    if pairs_of(t) > 2000 {
        return Err((1, 0));
    }
    let planned = t.starts[..n].iter().any(|&s| s != 0);
    match (0..n).find(|&k| planned && !(1..=16384).contains(&t.starts[k])) {
        Some(k) => Err((7, k)),
        None => Ok(()),
    }
}

fn pairs(t: &Tables, i: usize) -> impl Iterator<Item = usize> + '_ {
    (i + 1..t.n).filter(move |&j| t.guards[128 * i + j] != 255)
}

fn pairs_of(t: &Tables) -> usize {
    (0..t.n).map(|i| pairs(t, i).count()).sum()
}

// Tests and writes; 16 is not met, since the text grows.
pub fn write(t: &Tables, text: &mut Vec<u8>) -> Result<usize, Refused> {
    test(t)?;
    text.clear();
    put_line(text, &[b"paths"], t.n);
    for k in 0..t.n {
        put_line(text, &[t.label(k)], t.widths[k] as usize);
    }
    put_line(text, &[b"guards"], pairs_of(t));
    for i in 0..t.n {
        for j in pairs(t, i) {
            put_line(text, &[t.label(i), t.label(j)], t.guards[128 * i + j] as usize);
        }
    }
    if t.starts[..t.n].iter().any(|&s| s != 0) {
        put_line(text, &[b"starts"], t.n);
        for k in 0..t.n {
            put_line(text, &[t.label(k)], t.starts[k] as usize);
        }
    }
    Ok(text.len())
}
