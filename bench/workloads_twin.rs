//! Programs written by hand, a function for each workload of bench/workloads: each does for its one specification what lolamon does for any.
//! It reads the same files, a row of each in turns, and writes the same bytes to the same two streams, with one write for each trace line.
//!
//! usage: workloads_twin WORKLOAD FILE..

use std::collections::{HashMap, HashSet, VecDeque};
use std::fs::File;
use std::io::{self, BufRead, BufReader, StderrLock, StdoutLock, Write};

const SECOND: u64 = 1_000_000_000;

struct Source {
    lines: BufReader<File>,
    line: Vec<u8>,
    number: u64,
    ended: bool,
}

/// Sources of which a row is read in turns.
struct Sources {
    all: Vec<Source>,
    turn: usize,
}

struct Row<'a> {
    source: usize,
    number: u64,
    line: &'a [u8],
}

impl Sources {
    fn open(names: impl Iterator<Item = String>) -> io::Result<Sources> {
        let mut all = Vec::new();
        for name in names {
            let mut source =
                Source { lines: BufReader::with_capacity(131_072, File::open(name)?), line: Vec::new(), number: 0, ended: false };
            source.lines.read_until(b'\n', &mut source.line)?; // the heading: each function knows its columns
            all.push(source);
        }
        Ok(Sources { all, turn: 0 })
    }

    fn next(&mut self) -> io::Result<Option<Row<'_>>> {
        for _ in 0..self.all.len() {
            let source = self.turn;
            self.turn = if source + 1 == self.all.len() { 0 } else { source + 1 };
            let from = &mut self.all[source];
            if from.ended {
                continue;
            }
            from.line.clear();
            if from.lines.read_until(b'\n', &mut from.line)? == 0 {
                from.ended = true;
                continue;
            }
            if from.line.last() == Some(&b'\n') {
                from.line.pop();
            }
            from.number += 1;
            let from = &self.all[source];
            return Ok(Some(Row { source, number: from.number, line: &from.line }));
        }
        Ok(None)
    }
}

fn nanoseconds(field: &[u8]) -> u64 {
    let (mut seconds, mut part, mut unit) = (0, 0, SECOND);
    let mut bytes = field.iter();
    for byte in bytes.by_ref() {
        if *byte == b'.' {
            break;
        }
        seconds = seconds * 10 + u64::from(byte - b'0');
    }
    for byte in bytes.take(9) {
        unit /= 10;
        part += u64::from(byte - b'0') * unit;
    }
    seconds * SECOND + part
}

fn number(field: &[u8]) -> Option<i64> {
    let (below, digits) = match field {
        [] | [b'#'] => return None,
        [b'-', digits @ ..] => (true, digits),
        digits => (false, digits),
    };
    let magnitude = digits.iter().fold(0, |so_far, byte| so_far * 10 + i64::from(byte - b'0'));
    Some(if below { -magnitude } else { magnitude })
}

fn push_number(text: &mut Vec<u8>, mut number: u64) {
    let mut digits = [0; 20];
    let mut from = digits.len();
    loop {
        from -= 1;
        digits[from] = b'0' + (number % 10) as u8;
        number /= 10;
        if number == 0 {
            break;
        }
    }
    text.extend_from_slice(&digits[from..]);
}

fn push_time(text: &mut Vec<u8>, time: u64) {
    push_number(text, time / SECOND);
    let mut part = time % SECOND;
    let mut digits = *b".000000000";
    for digit in digits[1..].iter_mut().rev() {
        *digit = b'0' + (part % 10) as u8;
        part /= 10;
    }
    text.extend_from_slice(&digits);
}

/// What is written, and what of it is counted.
struct Answers {
    out: StdoutLock<'static>,
    err: StderrLock<'static>,
    trace: Vec<u8>,
    verdicts: Vec<u8>,
    merged: u64,
    accepted: u64,
    late: u64,
    steps: u64,
    lines: u64,
}

impl Answers {
    fn new() -> Answers {
        let (out, err) = (io::stdout().lock(), io::stderr().lock());
        Answers { out, err, trace: Vec::new(), verdicts: Vec::new(), merged: 0, accepted: 0, late: 0, steps: 0, lines: 0 }
    }

    /// Begins the trace line of a row, and tells whether the row is accepted.
    fn begin(&mut self, row: &Row, stamp: u64) -> bool {
        self.trace.clear();
        push_number(&mut self.trace, row.source as u64);
        self.trace.push(b',');
        push_number(&mut self.trace, row.number);
        self.trace.push(b',');
        push_time(&mut self.trace, stamp);
        if stamp < self.merged {
            self.trace.extend_from_slice(b",L");
            push_time(&mut self.trace, self.merged);
            self.late += 1;
            return false;
        }
        self.trace.extend_from_slice(b",A");
        self.merged = stamp;
        self.accepted += 1;
        self.steps += 1;
        true
    }

    fn number(&mut self, value: Option<i64>) {
        match value {
            None => self.trace.extend_from_slice(b",#"),
            Some(value) => {
                self.trace.push(b',');
                if value < 0 {
                    self.trace.push(b'-');
                }
                push_number(&mut self.trace, value.unsigned_abs());
            }
        }
    }

    fn text(&mut self, value: &[u8]) {
        self.trace.push(b',');
        if value.iter().any(|byte| matches!(byte, b',' | b'"')) {
            self.trace.push(b'"');
            for byte in value {
                if *byte == b'"' {
                    self.trace.push(b'"');
                }
                self.trace.push(*byte);
            }
            self.trace.push(b'"');
        } else {
            self.trace.extend_from_slice(value);
        }
    }

    fn end_trace(&mut self) -> io::Result<()> {
        self.trace.push(b'\n');
        self.err.write_all(&self.trace)
    }

    fn verdict(&mut self, time: u64, message: &str) {
        push_time(&mut self.verdicts, time);
        self.verdicts.extend_from_slice(b" trigger_1 \"");
        self.verdicts.extend_from_slice(message.as_bytes());
        self.verdicts.extend_from_slice(b"\"\n");
        self.lines += 1;
    }

    fn write_verdicts(&mut self) -> io::Result<()> {
        if !self.verdicts.is_empty() {
            self.out.write_all(&self.verdicts)?;
            self.verdicts.clear();
        }
        Ok(())
    }

    fn end(&mut self) -> io::Result<()> {
        let Answers { accepted, late, steps, lines, .. } = self;
        writeln!(self.verdicts, "= done accepted {accepted} late {late} steps {steps} lines {lines}")?;
        self.write_verdicts()
    }
}

/// The deadlines of one rate, which count from the first row; of panes the end of the first one comes before them, which has that row.
struct Deadlines {
    period: u64,
    start: u64,
    next: u64,
    of_panes: bool,
}

impl Deadlines {
    fn each(period: u64) -> Deadlines {
        Deadlines { period, start: 0, next: u64::MAX, of_panes: false }
    }

    fn of_panes(period: u64) -> Deadlines {
        Deadlines { of_panes: true, ..Deadlines::each(period) }
    }

    fn before(&mut self, time: u64) -> Option<u64> {
        if self.next == u64::MAX {
            self.start = time;
            self.next = if self.of_panes { time } else { time + self.period };
        }
        if self.next >= time {
            return None;
        }
        self.next += self.period;
        Some(self.next - self.period)
    }
}

/// Counts and sums of so many panes, of which each ends with a deadline.
struct Totals {
    panes: Vec<(i64, i64)>,
    now: usize,
    count: i64,
    sum: i64,
}

impl Totals {
    fn of(panes: usize) -> Totals {
        Totals { panes: vec![(0, 0); panes], now: 0, count: 0, sum: 0 }
    }

    fn add(&mut self, value: i64) {
        self.panes[self.now].0 += 1;
        self.panes[self.now].1 += value;
        self.count += 1;
        self.sum += value;
    }

    fn mean(&self) -> i64 {
        if self.count == 0 { 0 } else { self.sum / self.count }
    }

    fn end_pane(&mut self) {
        self.now = if self.now + 1 == self.panes.len() { 0 } else { self.now + 1 };
        let (count, sum) = std::mem::take(&mut self.panes[self.now]);
        self.count -= count;
        self.sum -= sum;
    }
}

/// Totals with the least and the greatest value: of each the values, with their panes, that none behind them beats.
struct Extremes {
    totals: Totals,
    pane: u64,
    least: VecDeque<(u64, i64)>,
    most: VecDeque<(u64, i64)>,
}

impl Extremes {
    fn of(panes: usize) -> Extremes {
        Extremes { totals: Totals::of(panes), pane: 0, least: VecDeque::new(), most: VecDeque::new() }
    }

    fn add(&mut self, value: i64) {
        self.totals.add(value);
        while self.least.back().is_some_and(|(_, other)| *other >= value) {
            self.least.pop_back();
        }
        self.least.push_back((self.pane, value));
        while self.most.back().is_some_and(|(_, other)| *other <= value) {
            self.most.pop_back();
        }
        self.most.push_back((self.pane, value));
    }

    fn sum_of_all(&self) -> i64 {
        let first = |values: &VecDeque<(u64, i64)>| values.front().map_or(0, |(_, value)| *value);
        self.totals.sum + first(&self.least) + first(&self.most) + self.totals.mean()
    }

    fn end_pane(&mut self) {
        self.totals.end_pane();
        self.pane += 1;
        let panes = self.totals.panes.len() as u64;
        for values in [&mut self.least, &mut self.most] {
            while values.front().is_some_and(|(pane, _)| pane + panes <= self.pane) {
                values.pop_front();
            }
        }
    }
}

/// How often a device came.
fn counter<'a>(seen: &'a mut HashMap<Box<[u8]>, i64>, device: &[u8]) -> &'a mut i64 {
    if !seen.contains_key(device) {
        seen.insert(device.into(), 0);
    }
    seen.get_mut(device).unwrap()
}

fn two_files(mut sources: Sources, mut answers: Answers) -> io::Result<()> {
    let mut deadlines = Deadlines::of_panes(SECOND);
    let mut temperatures = Totals::of(60);
    let mut seen: HashMap<Box<[u8]>, i64> = HashMap::new();
    let mut last_humidity = 0;
    loop {
        let row = sources.next()?;
        let (mut stamp, mut device, mut temperature, mut humidity) = (answers.merged + 1, None, None, None);
        if let Some(row) = &row {
            let mut fields = row.line.split(|byte| *byte == b',');
            stamp = nanoseconds(fields.next().unwrap());
            let accepted = answers.begin(row, stamp);
            if row.source == 0 {
                device = fields.next();
                temperature = number(fields.next().unwrap());
                answers.text(device.unwrap());
            } else {
                humidity = number(fields.next().unwrap());
                answers.number(None);
            }
            answers.number(temperature);
            answers.number(humidity);
            answers.end_trace()?;
            if !accepted {
                continue;
            }
        }
        while let Some(time) = deadlines.before(stamp) {
            if time > deadlines.start {
                answers.steps += 1;
                let is_even = seen.get(&b"d0"[..]).copied().unwrap_or(0) % 2 == 0;
                if temperatures.mean() >= 224 && last_humidity > 60 && is_even {
                    answers.verdict(time, "warm and damp");
                }
            }
            temperatures.end_pane();
        }
        if row.is_none() {
            return answers.end();
        }
        if let Some(temperature) = temperature {
            temperatures.add(temperature);
        }
        last_humidity = humidity.unwrap_or(last_humidity);
        if let Some(device) = device {
            *counter(&mut seen, device) += 1;
        }
        answers.write_verdicts()?;
    }
}

/// The stamp of a row of numbers alone, and whether it was accepted; its trace line is written, and its values are noted.
fn numbers_of(row: &Row, now: &mut [Option<i64>], answers: &mut Answers) -> io::Result<(u64, bool)> {
    let mut fields = row.line.split(|byte| *byte == b',');
    let stamp = nanoseconds(fields.next().unwrap());
    let is_accepted = answers.begin(row, stamp);
    for value in now {
        *value = number(fields.next().unwrap());
        answers.number(*value);
    }
    answers.end_trace()?;
    Ok((stamp, is_accepted))
}

fn outputs(mut sources: Sources, mut answers: Answers) -> io::Result<()> {
    let mut deadlines = Deadlines::each(SECOND / 5);
    // of each input its newest value, and the ones before it
    let mut before = [[None; 3]; 4];
    let (mut sums, mut counts) = ([0; 10], [0; 10]);
    loop {
        let row = sources.next()?;
        let (mut stamp, mut now) = (answers.merged + 1, [None; 4]);
        if let Some(row) = &row {
            let (came, is_accepted) = numbers_of(row, &mut now, &mut answers)?;
            stamp = came;
            if !is_accepted {
                continue;
            }
        }
        while let Some(time) = deadlines.before(stamp) {
            answers.steps += 1;
            if (sums.iter().sum::<i64>() + counts.iter().sum::<i64>()) % 3 == 0 {
                answers.verdict(time, "a third");
            }
        }
        if row.is_none() {
            return answers.end();
        }
        for place in 0..10 {
            let (p, q, r) = (place % 4, (place + 1) % 4, (place + 2) % 4);
            let Some(value) = now[q] else { continue };
            let _: i64 = value;
            sums[place] += now[p].or(before[p][0]).unwrap_or(1) * 2 - before[q][2].unwrap_or(0);
            if now[p].is_some_and(|value| value > before[q][0].unwrap_or(0)) && now[r].or(before[r][0]).unwrap_or(0) < 500 {
                counts[place] += 1;
            }
        }
        for (before, now) in before.iter_mut().zip(now) {
            if now.is_some() {
                *before = [now, before[0], before[1]];
            }
        }
        answers.write_verdicts()?;
    }
}

fn windows(mut sources: Sources, mut answers: Answers) -> io::Result<()> {
    let mut deadlines = Deadlines::of_panes(SECOND);
    let mut inputs = [Extremes::of(2400), Extremes::of(240)];
    loop {
        let row = sources.next()?;
        let (mut stamp, mut now) = (answers.merged + 1, [None; 2]);
        if let Some(row) = &row {
            let (came, is_accepted) = numbers_of(row, &mut now, &mut answers)?;
            stamp = came;
            if !is_accepted {
                continue;
            }
        }
        while let Some(time) = deadlines.before(stamp) {
            let [a, b] = &mut inputs;
            if time > deadlines.start {
                answers.steps += 1;
                if (a.sum_of_all() + b.sum_of_all()) % 5 == 0 && (a.totals.count + b.totals.count) % 2 == 0 {
                    answers.verdict(time, "a fifth");
                }
            }
            a.end_pane();
            b.end_pane();
        }
        if row.is_none() {
            return answers.end();
        }
        for (input, now) in inputs.iter_mut().zip(now) {
            if let Some(value) = now {
                input.add(value);
            }
        }
        answers.write_verdicts()?;
    }
}

fn instances(mut sources: Sources, mut answers: Answers) -> io::Result<()> {
    let mut seen: HashMap<Box<[u8]>, i64> = HashMap::new();
    while let Some(row) = sources.next()? {
        let mut fields = row.line.split(|byte| *byte == b',');
        let stamp = nanoseconds(fields.next().unwrap());
        let device = fields.next().unwrap();
        let accepted = answers.begin(&row, stamp);
        answers.text(device);
        answers.end_trace()?;
        if !accepted {
            continue;
        }
        let count = counter(&mut seen, device);
        *count += 1;
        if *count == 3 {
            answers.verdict(stamp, "the third time");
        }
        answers.write_verdicts()?;
    }
    answers.end()
}

fn sixteen_files(mut sources: Sources, mut answers: Answers) -> io::Result<()> {
    let mut held = [0; 16];
    while let Some(row) = sources.next()? {
        let mut fields = row.line.split(|byte| *byte == b',');
        let stamp = nanoseconds(fields.next().unwrap());
        let value = number(fields.next().unwrap());
        let accepted = answers.begin(&row, stamp);
        for source in 0..16 {
            answers.number(if source == row.source { value } else { None });
        }
        answers.end_trace()?;
        if !accepted {
            continue;
        }
        if let Some(value) = value {
            held[row.source] = value;
            if held.iter().sum::<i64>() > 10_000 {
                answers.verdict(stamp, "full");
            }
        }
        answers.write_verdicts()?;
    }
    answers.end()
}

fn deadlines(mut sources: Sources, mut answers: Answers) -> io::Result<()> {
    let mut deadlines = Deadlines::each(SECOND / 1000);
    let (mut newest, mut held, mut beats, mut climbed) = (0, 0, 0, 0);
    loop {
        let row = sources.next()?;
        let (mut stamp, mut value) = (answers.merged + 1, None);
        if let Some(row) = &row {
            let mut fields = row.line.split(|byte| *byte == b',');
            stamp = nanoseconds(fields.next().unwrap());
            value = number(fields.next().unwrap());
            let accepted = answers.begin(row, stamp);
            answers.number(value);
            answers.end_trace()?;
            if !accepted {
                continue;
            }
        }
        while let Some(time) = deadlines.before(stamp) {
            answers.steps += 1;
            beats += 1;
            let change = newest - held;
            held = newest;
            climbed += if change > 0 { change } else { 0 };
            if change > 0 && (climbed + beats) % 5 == 0 {
                answers.verdict(time, "rises");
            }
        }
        if row.is_none() {
            return answers.end();
        }
        newest = value.unwrap_or(newest);
        answers.write_verdicts()?;
    }
}

/// A field that may stand between double quotes, in which each is doubled.
fn unquoted<'a>(field: &'a [u8], room: &'a mut Vec<u8>) -> &'a [u8] {
    if field.first() != Some(&b'"') {
        return field;
    }
    room.clear();
    let mut bytes = field[1..].iter();
    while let Some(byte) = bytes.next() {
        if *byte == b'"' && bytes.next() != Some(&b'"') {
            break;
        }
        room.push(*byte);
    }
    room
}

fn texts(mut sources: Sources, mut answers: Answers) -> io::Result<()> {
    let (mut last, mut room) = (Vec::new(), Vec::new());
    while let Some(row) = sources.next()? {
        let comma = row.line.iter().position(|byte| *byte == b',').unwrap();
        let stamp = nanoseconds(&row.line[..comma]);
        let text = unquoted(&row.line[comma + 1..], &mut room);
        let accepted = answers.begin(&row, stamp);
        answers.text(text);
        answers.end_trace()?;
        if !accepted {
            continue;
        }
        if text == last {
            answers.verdict(stamp, "again");
        } else {
            last.clear();
            last.extend_from_slice(text);
        }
        answers.write_verdicts()?;
    }
    answers.end()
}

fn layer(mut sources: Sources, mut answers: Answers) -> io::Result<()> {
    let mut deadlines = Deadlines::each(SECOND);
    let mut places = HashMap::new();
    let mut all = Vec::new();
    loop {
        let row = sources.next()?;
        let (mut stamp, mut device) = (answers.merged + 1, None);
        if let Some(row) = &row {
            let mut fields = row.line.split(|byte| *byte == b',');
            stamp = nanoseconds(fields.next().unwrap());
            device = number(fields.next().unwrap());
            let accepted = answers.begin(row, stamp);
            answers.number(device);
            answers.end_trace()?;
            if !accepted {
                continue;
            }
        }
        while let Some(time) = deadlines.before(stamp) {
            answers.steps += 1;
            for (step, level, levels, mean) in &mut all {
                *level += *step;
                let levels: &mut Totals = levels;
                levels.add(*level);
                *mean = levels.mean();
                levels.end_pane();
            }
            if let Some(place) = places.get(&7) {
                let (_, _, _, mean) = &all[*place];
                if mean % 5 == 3 {
                    answers.verdict(time, "three");
                }
            }
        }
        if row.is_none() {
            return answers.end();
        }
        if let Some(device) = device {
            places.entry(device).or_insert_with(|| {
                all.push((device % 7 + 1, device, Totals::of(60), 0));
                all.len() - 1
            });
        }
        answers.write_verdicts()?;
    }
}

fn closes(mut sources: Sources, mut answers: Answers) -> io::Result<()> {
    let mut living = HashSet::new();
    while let Some(row) = sources.next()? {
        let mut fields = row.line.split(|byte| *byte == b',');
        let stamp = nanoseconds(fields.next().unwrap());
        let (born, gone) = (number(fields.next().unwrap()), number(fields.next().unwrap()));
        let accepted = answers.begin(&row, stamp);
        answers.number(born);
        answers.number(gone);
        answers.end_trace()?;
        if !accepted {
            continue;
        }
        if let Some(born) = born {
            living.insert(born);
        }
        if let Some(gone) = gone {
            if !living.remove(&gone) {
                answers.verdict(stamp, "unknown");
            }
        }
        answers.write_verdicts()?;
    }
    answers.end()
}

fn main() -> io::Result<()> {
    let mut words = std::env::args().skip(1);
    let program = match words.next().as_deref() {
        Some("two-files") => two_files,
        Some("outputs") => outputs,
        Some("windows") => windows,
        Some("instances") => instances,
        Some("sixteen-files") => sixteen_files,
        Some("deadlines") => deadlines,
        Some("texts") => texts,
        Some("layer") => layer,
        Some("closes") => closes,
        other => panic!("no workload: {other:?}"),
    };
    program(Sources::open(words)?, Answers::new())
}
