//! The rows of bench/latency judged by hand: for each that is read, its trace line is written, and then its verdict.

use std::fs::File;
use std::io::{Read, Write};
use std::os::fd::FromRawFd;

fn main() -> std::io::Result<()> {
    // standard streams without a buffer of their own
    let [mut rows, mut verdicts, mut trace] = [0, 1, 2].map(|number| unsafe { File::from_raw_fd(number) });
    let mut bytes = vec![0; 131_072];
    let mut number: u64 = 0;
    loop {
        let length = rows.read(&mut bytes)?;
        if length == 0 {
            return Ok(());
        }
        for row in bytes[..length].split_inclusive(|byte| *byte == b'\n') {
            let text = std::str::from_utf8(row).unwrap_or_default().trim_end();
            let Some((time, value)) = text.split_once(',') else { continue };
            let (Ok(time), Ok(value)) = (time.parse::<u64>(), value.parse::<i64>()) else { continue };
            number += 1;
            trace.write_all(format!("0,{number},{time}.000000000,A,{value}\n").as_bytes())?;
            if value > 0 {
                verdicts.write_all(format!("{time}.000000000 trigger_1 \"on\"\n").as_bytes())?;
            }
        }
    }
}
