//! The same run as the proved program makes of two files, in plain Rust: files are read in turns, rows merged and traced with one
//! write for each line, the streams of one specification evaluated layer by layer over whole lists of values, and verdicts written.
//!
//! The streams, as an interpreter's tree: three inputs, a mean over a minute and a hold at each second, a count for each device,
//! and a trigger.

use std::fs::File;
use std::io::{self, BufRead, BufReader, Write};

#[derive(Clone, Copy, PartialEq)]
enum Value {
    Bool(bool),
    Int(i128),
    Text(u64),
}

#[derive(Clone, Copy, PartialEq)]
enum Outcome {
    Missing,
    Value(Value),
    Fault,
}

enum Expr {
    Int(i128),
    Parameter,
    Direct(usize),
    Hold(usize),
    Last(usize, Box<Expr>),
    Mean(usize, u64),
    Defaults(Box<Expr>, Box<Expr>),
    Add(Box<Expr>, Box<Expr>),
    AtLeast(Box<Expr>, Box<Expr>),
    Above(Box<Expr>, Box<Expr>),
    Equal(Box<Expr>, Box<Expr>),
    And(Box<Expr>, Box<Expr>),
}

struct Instance {
    parameter: Option<Value>,
    values: Vec<(u64, Value)>,
    now: Outcome,
}

struct Stream {
    input: bool,
    periodic: bool,
    // the input by which it is paced, if it is not periodic
    paced_by: usize,
    layer: usize,
    spawn: Option<Expr>,
    when: Option<Expr>,
    with: Option<Expr>,
    trigger: Option<&'static str>,
    instances: Vec<Instance>,
}

struct Engine {
    streams: Vec<Stream>,
    layers: usize,
    time: u64,
    passed: u64,
    started: bool,
    steps: u64,
    lines: u64,
    texts: Vec<Vec<u8>>,
}

const SECOND: u64 = 1_000_000_000;

impl Engine {
    fn find(&self, stream: usize, parameter: Option<Value>) -> Option<&Instance> {
        self.streams[stream].instances.iter().find(|i| i.parameter == parameter)
    }

    fn number(&self, e: &Expr, p: Option<Value>) -> Result<i128, Outcome> {
        match self.eval(e, p) {
            Outcome::Value(Value::Int(z)) => Ok(z),
            other => Err(other),
        }
    }

    fn two(&self, a: &Expr, b: &Expr, p: Option<Value>) -> Result<(i128, i128), Outcome> {
        Ok((self.number(a, p)?, self.number(b, p)?))
    }

    fn mean(&self, stream: usize, span: u64) -> Outcome {
        let Some(instance) = self.find(stream, None) else {
            return Outcome::Missing;
        };
        let (mut total, mut count) = (0i128, 0u64);
        let mut add = |time: u64, value: Value| {
            if let Value::Int(z) = value {
                if time + span > self.time && time <= self.time {
                    total += z;
                    count += 1;
                }
            }
        };
        for (time, value) in &instance.values {
            add(*time, *value);
        }
        if let Outcome::Value(value) = instance.now {
            add(self.time, value);
        }
        if count == 0 { Outcome::Missing } else { Outcome::Value(Value::Int(total / count as i128)) }
    }

    fn eval(&self, e: &Expr, p: Option<Value>) -> Outcome {
        let truth = |r: Result<bool, Outcome>| match r {
            Ok(b) => Outcome::Value(Value::Bool(b)),
            Err(o) => o,
        };
        match e {
            Expr::Int(z) => Outcome::Value(Value::Int(*z)),
            Expr::Parameter => p.map_or(Outcome::Missing, Outcome::Value),
            Expr::Direct(s) => self.find(*s, None).map_or(Outcome::Missing, |i| i.now),
            Expr::Hold(s) => match self.find(*s, None) {
                None => Outcome::Missing,
                Some(i) => match i.now {
                    Outcome::Missing => i.values.last().map_or(Outcome::Missing, |v| Outcome::Value(v.1)),
                    now => now,
                },
            },
            Expr::Last(s, argument) => match self.eval(argument, p) {
                Outcome::Value(v) => self
                    .find(*s, Some(v))
                    .and_then(|i| i.values.last())
                    .map_or(Outcome::Missing, |v| Outcome::Value(v.1)),
                other => other,
            },
            Expr::Mean(s, span) => self.mean(*s, *span),
            Expr::Defaults(a, b) => match self.eval(a, p) {
                Outcome::Missing => self.eval(b, p),
                other => other,
            },
            Expr::Add(a, b) => match self.two(a, b, p) {
                Ok((x, y)) => match i64::try_from(x + y) {
                    Ok(z) => Outcome::Value(Value::Int(z as i128)),
                    Err(_) => Outcome::Fault,
                },
                Err(o) => o,
            },
            Expr::AtLeast(a, b) => truth(self.two(a, b, p).map(|(x, y)| x >= y)),
            Expr::Above(a, b) => truth(self.two(a, b, p).map(|(x, y)| x > y)),
            Expr::Equal(a, b) => match (self.eval(a, p), self.eval(b, p)) {
                (Outcome::Value(x), Outcome::Value(y)) => Outcome::Value(Value::Bool(x == y)),
                (Outcome::Value(_), other) => other,
                (other, _) => other,
            },
            Expr::And(a, b) => match self.eval(a, p) {
                Outcome::Value(Value::Bool(true)) => self.eval(b, p),
                other => other,
            },
        }
    }

    fn step(&mut self, time: u64, row: Option<&[Outcome]>, lines: &mut Vec<u8>) {
        self.time = time;
        self.steps += 1;
        for stream in &mut self.streams {
            for instance in &mut stream.instances {
                instance.now = Outcome::Missing;
            }
        }
        if let Some(fields) = row {
            for (stream, field) in self.streams.iter_mut().zip(fields) {
                stream.instances[0].now = *field;
            }
        }
        for layer in 0..self.layers {
            for s in 0..self.streams.len() {
                let stream = &self.streams[s];
                if stream.input || stream.layer != layer {
                    continue;
                }
                let active = match row {
                    None => stream.periodic,
                    Some(fields) => !stream.periodic && fields[stream.paced_by] != Outcome::Missing,
                };
                if !active {
                    continue;
                }
                if let Some(spawn) = &stream.spawn {
                    if let Outcome::Value(v) = self.eval(spawn, None) {
                        if self.find(s, Some(v)).is_none() {
                            let born = Instance { parameter: Some(v), values: Vec::new(), now: Outcome::Missing };
                            self.streams[s].instances.push(born);
                        }
                    }
                }
                for i in 0..self.streams[s].instances.len() {
                    let stream = &self.streams[s];
                    let p = stream.instances[i].parameter;
                    let on = match &stream.when {
                        None => true,
                        Some(when) => self.eval(when, p) == Outcome::Value(Value::Bool(true)),
                    };
                    let now = match &stream.with {
                        Some(with) if on => self.eval(with, p),
                        _ => Outcome::Missing,
                    };
                    self.streams[s].instances[i].now = now;
                }
            }
        }
        for (s, stream) in self.streams.iter_mut().enumerate() {
            for instance in &mut stream.instances {
                if let Outcome::Value(v) = instance.now {
                    instance.values.push((time, v));
                    if let (Some(message), Value::Bool(true)) = (stream.trigger, v) {
                        let _ = writeln!(lines, "{}.{:09} trigger_{} \"{message}\"", time / SECOND, time % SECOND, s - 5);
                        self.lines += 1;
                    }
                }
            }
        }
    }

    fn deadlines(&mut self, to: u64, lines: &mut Vec<u8>) {
        while self.passed + SECOND <= to {
            self.passed += SECOND;
            self.step(self.passed, None, lines);
        }
    }

    fn accept(&mut self, stamp: u64, fields: &[Outcome], lines: &mut Vec<u8>) {
        if !self.started {
            self.started = true;
            self.passed = stamp;
        }
        self.deadlines(stamp - 1, lines);
        self.step(stamp, Some(fields), lines);
    }

    fn intern(&mut self, text: &[u8]) -> u64 {
        match self.texts.iter().position(|t| t == text) {
            Some(at) => at as u64,
            None => {
                self.texts.push(text.to_vec());
                self.texts.len() as u64 - 1
            }
        }
    }
}

fn boxed(e: Expr) -> Box<Expr> {
    Box::new(e)
}

fn output(periodic: bool, paced_by: usize, layer: usize, with: Expr) -> Stream {
    Stream {
        input: false,
        periodic,
        paced_by,
        layer,
        spawn: None,
        when: None,
        with: Some(with),
        trigger: None,
        instances: vec![Instance { parameter: None, values: Vec::new(), now: Outcome::Missing }],
    }
}

fn engine() -> Engine {
    let mut streams = Vec::new();
    for _ in 0..3 {
        streams.push(Stream { input: true, ..output(false, 0, 0, Expr::Int(0)) });
    }
    streams.push(output(true, 0, 1, Expr::Defaults(boxed(Expr::Mean(1, 60 * SECOND)), boxed(Expr::Int(0)))));
    streams.push(output(true, 0, 1, Expr::Defaults(boxed(Expr::Hold(2)), boxed(Expr::Int(0)))));
    let count = Expr::Defaults(boxed(Expr::Last(5, boxed(Expr::Parameter))), boxed(Expr::Int(0)));
    streams.push(Stream {
        spawn: Some(Expr::Direct(0)),
        when: Some(Expr::Equal(boxed(Expr::Direct(0)), boxed(Expr::Parameter))),
        instances: Vec::new(),
        ..output(false, 0, 2, Expr::Add(boxed(count), boxed(Expr::Int(1))))
    });
    let warm = Expr::AtLeast(boxed(Expr::Direct(3)), boxed(Expr::Int(224)));
    let damp = Expr::Above(boxed(Expr::Direct(4)), boxed(Expr::Int(90)));
    streams.push(Stream {
        trigger: Some("warm and damp"),
        ..output(true, 0, 2, Expr::And(boxed(warm), boxed(damp)))
    });
    Engine { streams, layers: 3, time: 0, passed: 0, started: false, steps: 0, lines: 0, texts: Vec::new() }
}

// A time in nanoseconds.
fn time_of(text: &[u8]) -> Option<u64> {
    let text = std::str::from_utf8(text).ok()?;
    let (whole, part) = text.split_once('.').unwrap_or((text, ""));
    let mut nanos = whole.parse::<u64>().ok()?.checked_mul(SECOND)?;
    let mut unit = SECOND / 10;
    for digit in part.bytes().take(9) {
        nanos += u64::from(digit - b'0') * unit;
        unit /= 10;
    }
    Some(nanos)
}

struct Source {
    lines: BufReader<File>,
    line: Vec<u8>,
    // for each input the column that has it
    columns: [Option<usize>; 3],
    number: u64,
    ended: bool,
}

const INPUTS: [&str; 3] = ["dev", "temp", "hum"];

impl Source {
    fn open(name: &str) -> io::Result<Source> {
        let mut lines = BufReader::with_capacity(65536, File::open(name)?);
        let mut heading = String::new();
        lines.read_line(&mut heading)?;
        let names: Vec<&str> = heading.trim_end().split(',').collect();
        let columns = INPUTS.map(|input| names.iter().position(|name| *name == input));
        Ok(Source { lines, line: Vec::new(), columns, number: 0, ended: false })
    }
}

fn main() -> io::Result<()> {
    let mut sources = Vec::new();
    for name in std::env::args().skip(1) {
        sources.push(Source::open(&name)?);
    }
    let mut engine = engine();
    let (mut merged, mut accepted, mut late) = (0u64, 0u64, 0u64);
    let mut stderr = io::stderr();
    let mut stdout = io::stdout().lock();
    let (mut trace, mut verdicts) = (Vec::new(), Vec::new());
    loop {
        let mut all_ended = true;
        for s in 0..sources.len() {
            let source = &mut sources[s];
            if source.ended {
                continue;
            }
            all_ended = false;
            source.line.clear();
            if source.lines.read_until(b'\n', &mut source.line)? == 0 {
                source.ended = true;
                continue;
            }
            source.number += 1;
            let line = source.line.strip_suffix(b"\n").unwrap_or(&source.line);
            let fields: Vec<&[u8]> = line.split(|b| *b == b',').collect();
            let Some(stamp) = time_of(fields[0]) else {
                source.ended = true;
                continue;
            };
            let mut row = [Outcome::Missing; 3];
            for (i, column) in source.columns.iter().enumerate() {
                if let Some(column) = column {
                    let field = fields[*column];
                    row[i] = if i == 0 {
                        Outcome::Value(Value::Text(engine.intern(field)))
                    } else {
                        let digits = std::str::from_utf8(field).unwrap_or("");
                        digits.parse::<i64>().map_or(Outcome::Missing, |z| Outcome::Value(Value::Int(z as i128)))
                    };
                }
            }
            let is_late = stamp < merged;
            trace.clear();
            write!(trace, "{s},{},{}.{:09},", source.number, stamp / SECOND, stamp % SECOND)?;
            if is_late {
                write!(trace, "L{}.{:09}", merged / SECOND, merged % SECOND)?;
            } else {
                trace.push(b'A');
            }
            for field in row {
                match field {
                    Outcome::Value(Value::Int(z)) => write!(trace, ",{z}")?,
                    Outcome::Value(Value::Text(t)) => {
                        trace.push(b',');
                        trace.extend_from_slice(&engine.texts[t as usize]);
                    }
                    _ => trace.extend_from_slice(b",#"),
                }
            }
            trace.push(b'\n');
            stderr.write_all(&trace)?;
            if is_late {
                late += 1;
                continue;
            }
            merged = stamp;
            accepted += 1;
            verdicts.clear();
            engine.accept(stamp, &row, &mut verdicts);
            if !verdicts.is_empty() {
                stdout.write_all(&verdicts)?;
                stdout.flush()?;
            }
        }
        if all_ended {
            break;
        }
    }
    verdicts.clear();
    engine.deadlines(merged, &mut verdicts);
    stdout.write_all(&verdicts)?;
    writeln!(stdout, "= done accepted {accepted} late {late} steps {} lines {}", engine.steps, engine.lines)?;
    stdout.flush()
}
