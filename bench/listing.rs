// The same program written plainly in Rust, for the bench: it reads plan.bin and trace.bin in its folder, and lists every tick
// under rule E through a buffered writer and `writeln!`. It has the rules of docs/RULES.md and nothing of our code.
use std::fs;
use std::io::{self, BufWriter, Write};

#[derive(Clone, Copy, PartialEq)]
enum Phase {
    Resting,
    AtWork,
    Supplying,
}

struct Row {
    isolated: bool,
    budget: u32,
    period: u32,
    phase: Phase,
    capacity: u32,
    residual: u32,
    deadline: u32,
    jobs: u32,
}

impl Row {
    fn recharge(&mut self, t: u32) {
        self.capacity = self.budget;
        self.residual = 0;
        self.deadline = t + self.period;
    }
}

struct Executive {
    rows: Vec<Row>,
    t: u32,
}

impl Executive {
    fn earliest<F: Fn(&Row) -> Option<u32>>(&self, key: F) -> Option<usize> {
        let mut best: Option<(u32, usize)> = None;
        for (k, row) in self.rows.iter().enumerate() {
            if let Some(d) = key(row) {
                if best.map_or(true, |b| d < b.0) {
                    best = Some((d, k));
                }
            }
        }
        best.map(|b| b.1)
    }

    fn supplied(&self, by: u32) -> Option<usize> {
        self.earliest(|r| (r.phase == Phase::Supplying && r.residual > 0 && r.deadline <= by).then_some(r.deadline))
    }

    fn payment(&self, k: usize) -> Option<(usize, char)> {
        let due = self.rows[k].deadline;
        if let Some(p) = self.supplied(due) {
            return Some((p, 'r'));
        }
        if self.rows[k].capacity > 0 {
            return Some((k, 'o'));
        }
        let t = self.t;
        self.earliest(|r| {
            if r.phase != Phase::Resting || r.isolated {
                None
            } else if r.deadline <= t {
                (t + r.period <= due).then_some(t + r.period)
            } else {
                (r.deadline <= due && r.capacity > 0).then_some(r.deadline)
            }
        })
        .map(|p| (p, 's'))
    }

    fn who(&self) -> (Option<usize>, Option<(usize, char)>) {
        let mut passed = vec![false; self.rows.len()];
        loop {
            let mut best: Option<usize> = None;
            for (k, row) in self.rows.iter().enumerate() {
                if row.phase == Phase::AtWork && !passed[k] && best.map_or(true, |b| row.deadline < self.rows[b].deadline) {
                    best = Some(k);
                }
            }
            let Some(k) = best else { break };
            if let Some(payment) = self.payment(k) {
                return (Some(k), Some(payment));
            }
            passed[k] = true;
        }
        (None, self.supplied(u32::MAX).map(|p| (p, 'i')))
    }

    fn tick<W: Write>(&mut self, finished: bool, out: &mut W) -> io::Result<bool> {
        let (runner, payment) = self.who();
        if finished && runner.is_none() {
            return Ok(false);
        }
        let t = self.t;
        match payment {
            None => writeln!(out, "{t} - e - - -")?,
            Some((p, source)) => {
                let row = &mut self.rows[p];
                if source == 's' && row.deadline <= t {
                    row.recharge(t);
                }
                let left = if source == 'r' || source == 'i' {
                    row.residual -= 1;
                    row.residual
                } else {
                    row.capacity -= 1;
                    row.capacity
                };
                let due = row.deadline;
                match runner {
                    Some(k) => writeln!(out, "{t} {k} {source} {p} {due} {left}")?,
                    None => writeln!(out, "{t} - {source} {p} {due} {left}")?,
                }
            }
        }
        if let (true, Some(k)) = (finished, runner) {
            let row = &mut self.rows[k];
            row.jobs -= 1;
            if row.jobs == 0 {
                row.phase = Phase::Supplying;
                row.residual = row.capacity;
                row.capacity = 0;
            }
        }
        self.t += 1;
        let t = self.t;
        for row in self.rows.iter_mut() {
            if row.deadline == t && row.phase != Phase::Resting {
                if row.phase == Phase::AtWork || row.jobs > 0 {
                    row.recharge(t);
                    row.phase = Phase::AtWork;
                } else {
                    row.phase = Phase::Resting;
                    row.capacity = 0;
                    row.residual = 0;
                }
            }
            if row.phase == Phase::Resting && row.deadline >= t {
                row.capacity = row.capacity.min((row.deadline - t) * row.budget / row.period);
            }
        }
        Ok(true)
    }

    fn arrive(&mut self, k: usize) -> bool {
        let t = self.t;
        let Some(row) = self.rows.get_mut(k) else { return false };
        if row.jobs == 255 {
            return false;
        }
        row.jobs += 1;
        if row.phase == Phase::Resting {
            if row.deadline <= t {
                row.recharge(t);
            }
            row.phase = Phase::AtWork;
        }
        true
    }
}

fn main() -> io::Result<()> {
    let plan = fs::read("plan.bin")?;
    let trace = fs::read("trace.bin")?;
    let mut executive = Executive { rows: Vec::new(), t: 0 };
    for word in plan[1..].chunks(4) {
        let w = u32::from_be_bytes([word[0], word[1], word[2], word[3]]);
        executive.rows.push(Row {
            isolated: w >> 31 == 1,
            budget: w >> 14 & 0x3fff,
            period: w & 0x3fff,
            phase: Phase::Resting,
            capacity: 0,
            residual: 0,
            deadline: 0,
            jobs: 0,
        });
    }
    let mut out = BufWriter::new(io::stdout().lock());
    writeln!(out, "rule E servers {}", executive.rows.len())?;
    for (k, entry) in trace.chunks(2).enumerate() {
        let w = u16::from_be_bytes([entry[0], entry[1]]);
        let argument = w & 0x3fff;
        let granted = match w >> 14 {
            0 => {
                for _ in 0..argument {
                    executive.tick(false, &mut out)?;
                }
                true
            }
            1 => executive.arrive(argument as usize),
            _ => executive.tick(true, &mut out)?,
        };
        if !granted {
            writeln!(out, "refused at byte {}", 2 * k)?;
            break;
        }
    }
    out.flush()
}
