// A plan on one thread for each core, from Rust, by the crate msrp.
// usage: executive-rs PLAN > TRACE

use msrp::{Core, Plan, Run, Step, TextVersion, Turn};
use std::time::{Duration, Instant};
use std::{env, error::Error, fs, io::Write, process::ExitCode, thread};

const TICK: Duration = Duration::from_micros(200);

/// Drives a core tick by tick, and counts the units of work of its jobs.
fn drive(core: &mut Core, mut start: Instant) -> Result<u32, msrp::Error> {
    let mut units = 0;
    loop {
        thread::sleep(start.saturating_duration_since(Instant::now()));
        match core.turn()? {
            Turn::Wait => thread::yield_now(),
            Turn::Done => return Ok(units),
            Turn::Row { row, .. } => {
                units += u32::from(matches!(row.step, Step::Run(_))); // the job's work is done here
                core.arrive()?;
                start += TICK;
            }
        }
    }
}

/// Runs a plan, and gives its trace.
fn execute(plan: &Plan) -> Result<String, Box<dyn Error>> {
    let mut run = Run::new(plan)?;
    let mut cores = run.cores()?;
    let start = Instant::now() + Duration::from_millis(20);
    let units: Vec<_> = thread::scope(|scope| {
        let driven = cores.iter_mut().map(|core| scope.spawn(move || drive(core, start)));
        let threads: Vec<_> = driven.collect();
        threads.into_iter().map(|thread| thread.join()).collect()
    });
    for (number, (core, units)) in cores.iter_mut().zip(units).enumerate() {
        eprintln!("core {number}: {} units of work", units.map_err(|_| "a thread panicked")??);
        run.join(core)?;
    }
    Ok(run.trace(TextVersion::Two)?)
}

fn try_main() -> Result<(), Box<dyn Error>> {
    let path = env::args().nth(1).ok_or("usage: executive-rs PLAN > TRACE")?;
    let trace = execute(&Plan::new(fs::read(path)?)?)?;
    Ok(std::io::stdout().write_all(trace.as_bytes())?)
}

fn main() -> ExitCode {
    match try_main() {
        Ok(()) => ExitCode::SUCCESS,
        Err(why) => {
            eprintln!("executive: {why}");
            ExitCode::FAILURE
        }
    }
}
