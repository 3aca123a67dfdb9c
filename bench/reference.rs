//! Plain Rust that does the same work as the cutter: the same losses from prefix sums, the same rows, the same ties.

pub trait Loss {
    fn stretch(&self, a: usize, b: usize) -> u64;
}

/// Prefix sums of the readings, counted from the lowest level, and of their squares.
pub struct Squares {
    sums: Vec<u64>,
    squares: Vec<u64>,
}

impl Squares {
    pub fn new(readings: &[i16]) -> Self {
        let (mut sums, mut squares) = (vec![0], vec![0]);
        for &x in readings {
            let u = (i32::from(x) + 32768) as u64;
            sums.push(sums[sums.len() - 1] + u);
            squares.push(squares[squares.len() - 1] + u * u);
        }
        Squares { sums, squares }
    }
}

impl Loss for Squares {
    fn stretch(&self, a: usize, b: usize) -> u64 {
        let n = (b - a) as u64;
        let s = self.sums[b] - self.sums[a];
        let q = self.squares[b] - self.squares[a];
        let v = if s % n * 2 <= n { s / n } else { s / n + 1 };
        q + n * v * v - 2 * v * s
    }
}

/// How many readings of each class stand before each place.
pub struct Votes {
    counts: Vec<[u16; 16]>,
}

impl Votes {
    pub fn new(codes: &[u8]) -> Self {
        let mut counts = vec![[0u16; 16]];
        for &c in codes {
            let mut row = counts[counts.len() - 1];
            row[c as usize] += 1;
            counts.push(row);
        }
        Votes { counts }
    }
}

impl Loss for Votes {
    fn stretch(&self, a: usize, b: usize) -> u64 {
        let (before, after) = (&self.counts[a], &self.counts[b]);
        let most = (0..16).map(|k| after[k] - before[k]).max().unwrap();
        (b - a) as u64 - u64::from(most)
    }
}

/// Port by squares, starboard by votes weighted.
pub struct Pair {
    pub port: Squares,
    pub starboard: Votes,
    pub weight: u64,
}

impl Loss for Pair {
    fn stretch(&self, a: usize, b: usize) -> u64 {
        self.port.stretch(a, b) + self.weight * self.starboard.stretch(a, b)
    }
}

/// The least total with the number of boundaries, the later start among equals; the total of the whole line.
pub fn cut_by_penalty<L: Loss>(loss: &L, n: usize, penalty: u64, boundaries: &mut Vec<u16>) -> u64 {
    let mut row = vec![(0u64, 0u64); n + 1];
    let mut trace = vec![0u16; n + 1];
    for t in 1..=n {
        let mut best = (u64::MAX, u64::MAX);
        for a in 0..t {
            let (total, count) = row[a];
            let l = loss.stretch(a, t);
            let tally = if a == 0 { (total + l, count) } else { (total + l + penalty, count + 1) };
            if tally <= best {
                best = tally;
                trace[t] = a as u16;
            }
        }
        row[t] = best;
    }
    boundaries.clear();
    let mut at = trace[n];
    while at > 0 {
        boundaries.push(at);
        at = trace[at as usize];
    }
    boundaries.reverse();
    row[n].0
}

/// A row of the least losses of s + 1 stretches from that of s, with the trace of the starts if one is lent.
fn next_row<L: Loss>(loss: &L, n: usize, from: &[u64], to: &mut [u64], mut trace: Option<&mut [u16]>) {
    for t in 0..=n {
        let (mut best, mut start) = (u64::MAX, 0);
        for a in 0..t {
            if from[a] != u64::MAX {
                let tally = from[a] + loss.stretch(a, t);
                if tally <= best {
                    (best, start) = (tally, a as u16);
                }
            }
        }
        to[t] = best;
        if let Some(trace) = trace.as_deref_mut() {
            trace[t] = start;
        }
    }
}

/// The least loss with `count` boundaries.
pub fn cut_by_count<L: Loss>(loss: &L, n: usize, count: usize, boundaries: &mut Vec<u16>) -> u64 {
    let mut trace = vec![0u16; (count + 1) * (n + 1)];
    let mut from = vec![u64::MAX; n + 1];
    let mut to = vec![0; n + 1];
    from[0] = 0;
    for s in 0..=count {
        next_row(loss, n, &from, &mut to, Some(&mut trace[s * (n + 1)..(s + 1) * (n + 1)]));
        std::mem::swap(&mut from, &mut to);
    }
    boundaries.clear();
    let mut at = n;
    for s in (1..=count).rev() {
        at = trace[s * (n + 1) + at] as usize;
        boundaries.push(at as u16);
    }
    boundaries.reverse();
    from[n]
}

/// Steps (first penalty, count, loss): the lower envelope of the least losses by count.
pub fn path<L: Loss>(loss: &L, n: usize) -> Vec<(u64, u16, u64)> {
    let mut from = vec![u64::MAX; n + 1];
    let mut to = vec![0; n + 1];
    let mut least = vec![0; n];
    from[0] = 0;
    for k in 0..n {
        next_row(loss, n, &from, &mut to, None);
        std::mem::swap(&mut from, &mut to);
        least[k] = from[n];
    }
    let cheapest = |p: u64| (0..n).filter(|&k| least[k] != u64::MAX).min_by_key(|&k| (least[k] + p * k as u64, k)).unwrap();
    let mut steps = vec![];
    let mut p = 0;
    loop {
        let k = cheapest(p);
        steps.push((p, k as u16, least[k]));
        match (0..k).filter(|&j| least[j] != u64::MAX).map(|j| (least[j] - least[k]).div_ceil((k - j) as u64)).min() {
            Some(q) => p = q,
            None => return steps,
        }
    }
}
