#!/usr/bin/env bash
# Times `intervals` inside the process: builds the program below beside copies of the crates that it uses.
set -euo pipefail

source "$(dirname "$(readlink -f "${BASH_SOURCE[0]}")")/crates.sh"

mkdir -p "$work/crates/bench_intervals/src"
cat > "$work/crates/bench_intervals/src/main.rt" <<'PROGRAM'
//! Times `intervals` inside the process, in a zone with daylight saving time: the least and the middle of 21 listings.
#![tactic(auto)]

use anyhow::{Context, Result};
use bf_cron::CronSpec;
use bf_interval::intervals;
use jiff::Timestamp;
use jiff::tz::TimeZone;
use std::time::Instant;

const ZONE: &str = "CET-1CEST,M3.5.0,M10.5.0/3";

/// Schedule, and the first and last moment of the range. The first two give 4,096 intervals.
const LISTINGS: [(&str, &str, &str); 4] = [
    ("* * * * *", "2024-03-29T00:00:00Z", "2024-03-31T20:15:00Z"),
    (
        "59 23 * * *",
        "1970-01-01T00:00:00Z",
        "1981-03-19T22:59:00Z",
    ),
    ("0 0 29 2 *", "1970-01-01T00:00:00Z", "2199-12-31T23:59:59Z"),
    ("0 0 1 * *", "1970-01-01T00:00:00Z", "2199-12-31T23:59:59Z"),
];

fn time(rt: &HostRuntime, schedule: &str, from: &str, to: &str) -> Result<()> {
    let alloc = rt.alloc();
    let spec = CronSpec::read(alloc, schedule)?;
    let zone = TimeZone::posix(ZONE)?;
    let (from, to): (Timestamp, Timestamp) = (from.parse()?, to.parse()?);
    let mut times = Vec::new(alloc);
    let mut count = 0;
    for _ in 0..21u8 {
        let start = Instant::now(rt)?;
        count = intervals(alloc, &spec, &zone, from, to)?.len();
        times.push(start.elapsed(rt)?.as_micros())?;
    }
    times.sort()?;
    let (least, middle) = (
        times.first().context("no times")?,
        times.get(10).context("no times")?,
    );
    println!(rt; "{schedule}: {count} intervals, least {least} us, middle {middle} us")?;
    Ok(())
}

fn main(rt: HostRuntime) -> Result<()> {
    for (schedule, from, to) in LISTINGS {
        time(&rt, schedule, from, to)?;
    }
    Ok(())
}
PROGRAM
lay_out bf_cron bf_interval
echo 'bench_intervals: bf_cron bf_interval jiff anyhow' >> "$work/crates.txt"

cd "$work/crates/bench_intervals"
rt run > "$work/log" 2>&1 || { tail -n 20 "$work/log"; exit 1; }
out/bench_intervals
