//! `timed INPUT OUTPUT WORDS..` runs a program with these files as its standard input and output, and writes on its own standard output
//! its exit status, the seconds of user, system and clock, and its peak memory in bytes.
//!
//! The kernel counts what a program's parent holds when it starts it as a part of its peak, so the parent has to be small:
//! this one holds some two megabytes, where Python holds fifteen.

use std::fs::File;
use std::os::unix::process::ExitStatusExt;
use std::process::{Command, ExitStatus, Stdio};
use std::time::Instant;
use std::{env, io};

/// What wait4(2) tells: two times of seconds and microseconds, the peak in kilobytes, and thirteen numbers more.
#[repr(C)]
#[derive(Default)]
struct Usage {
    user: [i64; 2],
    system: [i64; 2],
    peak: i64,
    others: [i64; 13],
}

extern "C" {
    fn wait4(process: i32, status: *mut i32, options: i32, usage: *mut Usage) -> i32;
}

fn main() -> io::Result<()> {
    let words: Vec<String> = env::args().collect();
    let [_, input, output, program, rest @ ..] = &words[..] else {
        return Err(io::Error::other("timed INPUT OUTPUT WORDS.."));
    };
    let (input, output) = (File::open(input)?, File::create(output)?);
    let start = Instant::now();
    #[allow(clippy::zombie_processes)]
    let process = Command::new(program).args(rest).stdin(input).stdout(output).stderr(Stdio::inherit()).spawn()?;
    let (mut status, mut usage) = (0, Usage::default());
    if unsafe { wait4(process.id() as i32, &mut status, 0, &mut usage) } < 0 {
        return Err(io::Error::last_os_error());
    }
    let clock = start.elapsed().as_secs_f64();
    let seconds = |time: [i64; 2]| time[0] as f64 + time[1] as f64 / 1e6;
    // a program that a signal ended has no status
    let status = ExitStatus::from_raw(status).code().unwrap_or(-1);
    println!("{status} {:.6} {:.6} {clock:.6} {}", seconds(usage.user), seconds(usage.system), usage.peak * 1024);
    Ok(())
}
