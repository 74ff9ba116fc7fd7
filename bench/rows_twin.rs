//! The same work as the proved reader does, in plain Rust: the rows of `rows.csv`, each with its time and the values of
//! four inputs (two numbers and two texts, absent without a column), counted.
#![allow(dead_code)]

use std::fs::File;
use std::io::Read;

enum Field {
    Absent,
    Int(i128),
    Text(Vec<u8>),
}

struct Row {
    stamp: u64,
    fields: Vec<Field>,
}

#[derive(Clone, Copy)]
struct Column {
    place: Option<usize>,
    is_text: bool,
}

// The fields of a line, each behind the one before in one text.
fn split(line: &[u8], text: &mut Vec<u8>, ends: &mut Vec<usize>) {
    text.clear();
    ends.clear();
    let mut at = 0;
    loop {
        if at < line.len() && line[at] == b'"' {
            at += 1;
            while at < line.len() {
                if line[at] == b'"' {
                    if at + 1 < line.len() && line[at + 1] == b'"' {
                        at += 1;
                    } else {
                        break;
                    }
                }
                text.push(line[at]);
                at += 1;
            }
            at += 1;
        }
        while at < line.len() && line[at] != b',' {
            text.push(line[at]);
            at += 1;
        }
        ends.push(text.len());
        if at >= line.len() {
            return;
        }
        at += 1;
    }
}

fn trim(field: &[u8]) -> &[u8] {
    let is_blank = |b: &u8| *b == b' ' || *b == b'\t';
    let from = field.iter().take_while(|b| is_blank(b)).count();
    let rest = &field[from..];
    &rest[..rest.len() - rest.iter().rev().take_while(|b| is_blank(b)).count()]
}

fn time(field: &[u8]) -> Option<u64> {
    let (mut value, mut decimals, mut digits, mut point) = (0u128, 0, 0, false);
    for b in field {
        match b {
            b'.' if !point => point = true,
            b'0'..=b'9' => {
                digits += 1;
                if !point || decimals < 9 {
                    value = value.checked_mul(10)?.checked_add((b - b'0') as u128)?;
                    decimals += point as u32;
                }
            }
            _ => return None,
        }
    }
    value = value.checked_mul(10u128.pow(9 - decimals))?;
    (digits > 0 && value <= 4_000_000_000_000_000_000).then_some(value as u64)
}

fn number(field: &[u8]) -> Option<i128> {
    let (negative, digits) = match field.first()? {
        b'-' => (true, &field[1..]),
        b'+' => (false, &field[1..]),
        _ => (false, field),
    };
    let mut value = 0i128;
    for b in digits {
        if !b.is_ascii_digit() {
            return None;
        }
        value = value.checked_mul(10)?.checked_add((b - b'0') as i128)?;
    }
    if digits.is_empty() {
        return None;
    }
    let value = if negative { -value } else { value };
    (i64::MIN as i128..=i64::MAX as i128).contains(&value).then_some(value)
}

fn value(field: &[u8], is_text: bool) -> Option<Field> {
    let bare = if is_text { field } else { trim(field) };
    if bare.is_empty() || bare == b"#" {
        return Some(Field::Absent);
    }
    if is_text {
        Some(Field::Text(field.to_vec()))
    } else {
        number(bare).map(Field::Int)
    }
}

fn main() {
    let mut file = File::open("rows.csv").unwrap();
    let mut window = Vec::new();
    let (mut text, mut ends) = (Vec::new(), Vec::new());
    let mut columns = [Column { place: None, is_text: false }; 4];
    let mut time_at = None;
    let mut rows = 0u64;
    let mut piece = vec![0u8; 65536];
    loop {
        let count = file.read(&mut piece).unwrap();
        window.extend_from_slice(&piece[..count]);
        let mut from = 0;
        while let Some(length) = window[from..].iter().position(|b| *b == b'\n') {
            let line = &window[from..from + length];
            let line = line.strip_suffix(b"\r").unwrap_or(line);
            from += length + 1;
            if line.is_empty() {
                continue;
            }
            assert!(line.len() <= 65536 && !line.contains(&b'\r') && std::str::from_utf8(line).is_ok());
            split(line, &mut text, &mut ends);
            let field = |n: usize| &text[if n == 0 { 0 } else { ends[n - 1] }..ends[n]];
            let Some(time_at) = time_at else {
                let find = |name: &[u8]| (0..ends.len()).find(|n| trim(field(*n)) == name);
                for (column, name) in columns.iter_mut().zip([&b"a"[..], b"b", b"s", b"t"]) {
                    *column = Column { place: find(name), is_text: name >= &b"s"[..] };
                }
                time_at = find(b"time");
                continue;
            };
            let row = Row {
                stamp: time(trim(field(time_at))).unwrap(),
                fields: columns
                    .iter()
                    .map(|c| c.place.map_or(Some(Field::Absent), |p| value(field(p), c.is_text)).unwrap())
                    .collect(),
            };
            std::hint::black_box(&row.fields);
            rows += row.stamp % 2 + 1;
        }
        window.drain(..from);
        if count == 0 {
            break;
        }
    }
    println!("{rows}");
}
