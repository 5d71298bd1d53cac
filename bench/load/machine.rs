//! The machine: its clock, and what processes have used of it.

use std::fs;
use std::sync::LazyLock;
use std::time::Instant;

extern "C" {
    fn prctl(option: i32, value: u64, ...) -> i32;
}

const PR_SET_TIMERSLACK: i32 = 29;
const TICK_NANOS: u64 = 10_000_000;

/// A clock that all threads of this process share.
pub struct Monotonic(Instant);

pub static MONOTONIC: LazyLock<Monotonic> = LazyLock::new(|| Monotonic(Instant::now()));

impl Monotonic {
    /// Nanoseconds since its first use.
    pub fn now(&self) -> u64 {
        self.0.elapsed().as_nanos() as u64
    }
}

/// Lets this thread's sleeps end when they are due; else the kernel may add 50 microseconds.
pub fn sleep_exactly() {
    unsafe {
        prctl(PR_SET_TIMERSLACK, 1);
    }
}

/// Processor time in nanoseconds.
pub struct Usage {
    /// Of the broker, or of both where two are linked.
    pub broker: u64,
    own: u64,
    machine: u64,
    at: Instant,
    passed: f64,
}

impl Usage {
    pub fn of(pids: &[u32]) -> Self {
        Self {
            broker: pids.iter().map(|&pid| of_process(pid)).sum(),
            own: of_process(std::process::id()),
            machine: of_machine(),
            at: Instant::now(),
            passed: 0.0,
        }
    }

    pub fn since(&self, before: &Self) -> Self {
        Self {
            broker: self.broker - before.broker,
            own: self.own - before.own,
            machine: self.machine - before.machine,
            at: self.at,
            passed: (self.at - before.at).as_nanos() as f64,
        }
    }

    /// How many processors other processes had, and how many this one.
    pub fn others(&self) -> String {
        let others = self.machine.saturating_sub(self.broker + self.own) as f64 / self.passed;
        format!(r#""others": {others:.2}, "own": {:.2}"#, self.own as f64 / self.passed)
    }
}

fn of_process(pid: u32) -> u64 {
    let tasks = fs::read_dir(format!("/proc/{pid}/task")).expect("the process");
    let times = tasks.filter_map(|task| fs::read_to_string(task.ok()?.path().join("schedstat")).ok());
    times
        .map(|text| text.split(' ').next().and_then(|word| word.parse::<u64>().ok()).unwrap_or(0))
        .sum()
}

/// User, nice, system, interrupts and stolen time of all processors.
fn of_machine() -> u64 {
    let text = fs::read_to_string("/proc/stat").expect("/proc/stat");
    let ticks: Vec<u64> = text
        .lines()
        .next()
        .unwrap_or("")
        .split_whitespace()
        .skip(1)
        .map(|word| word.parse().unwrap_or(0))
        .collect();
    (ticks[0] + ticks[1] + ticks[2] + ticks[5] + ticks[6] + ticks[7]) * TICK_NANOS
}

pub fn resident_kib(pid: u32) -> u64 {
    let text = fs::read_to_string(format!("/proc/{pid}/status")).expect("the process");
    let line = text.lines().find(|line| line.starts_with("VmRSS:")).expect("VmRSS");
    line.split_whitespace().nth(1).and_then(|word| word.parse().ok()).expect("a number")
}
