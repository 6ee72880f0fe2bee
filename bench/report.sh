#!/usr/bin/env bash
# Times `read_report` and `write_report` inside the process, over a report of 2,000 tasks in 100 runs: builds the program below beside
# copies of the crates that it uses, which takes half an hour where they aren't proved. It writes to a file.
set -euo pipefail

source "$(dirname "$(readlink -f "${BASH_SOURCE[0]}")")/crates.sh"

mkdir -p "$work/crates/bench_report/src"
cat > "$work/crates/bench_report/src/main.rt" <<'PROGRAM'
//! Times reading and writing the report in the file `report`: the least and the middle of 21 times.
#![tactic(auto)]

use anyhow::{Context, Result};
use bf_device::{Bytes, Output};
use bf_report::write_report;
use bf_report_reader::read_report;
use std::fs::File;
use std::io::Read;
use std::time::Instant;

fn print(rt: &HostRuntime, name: &str, mut times: Vec<u128>) -> Result<()> {
    times.sort()?;
    let (least, middle) = (
        times.first().context("no times")?,
        times.get(10).context("no times")?,
    );
    eprintln!(rt; "{name}: least {least} us, middle {middle} us")?;
    Ok(())
}

fn main(rt: HostRuntime) -> Result<()> {
    let alloc = rt.alloc();
    let mut bytes = Vec::new(alloc);
    File::open(&rt, "report")?.read_to_end(&mut bytes)?;
    let mut readings = Vec::new(alloc);
    let mut writings = Vec::new(alloc);
    for _ in 0..21u8 {
        let mut device = Bytes::new(bytes.to_vec(alloc)?);
        let start = Instant::now(&rt)?;
        let report = read_report(alloc, &mut device)?;
        readings.push(start.elapsed(&rt)?.as_micros())?;
        let mut out = Output::new(rt.stdout());
        let start = Instant::now(&rt)?;
        write_report(alloc, &report, &mut out)?;
        writings.push(start.elapsed(&rt)?.as_micros())?;
    }
    print(&rt, "read_report", readings)?;
    print(&rt, "write_report", writings)
}
PROGRAM
awk 'BEGIN {
    print "@backfill 2 g"
    for (day = 0; day < 100; day++) {
        start = 946684800 + 86400 * day
        print "@run", strftime("%Y-%m-%dT%H:%M:%SZ", start, 1), strftime("%Y-%m-%dT%H:%M:%SZ", start + 86400, 1), "success"
        for (task = 0; task < 2000; task++)
            print "t" task, -1, "success", 1, "-"
    }
    print "@end 100"
}' > "$work/crates/bench_report/report"

lay_out bf_device bf_report bf_report_reader
echo 'bench_report: bf_device bf_report bf_report_reader anyhow' >> "$work/crates.txt"

cd "$work/crates/bench_report"
rt run > "$work/log" 2>&1 || { tail -n 20 "$work/log"; exit 1; }
out/bench_report > "$work/out"
