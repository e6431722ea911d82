//! Runs on threads.

use msrp::{audit, Auditor, Core, Error, Plan, Row, Run, TextVersion, Turn};
use std::sync::mpsc::{channel, Sender};
use std::thread;

const CORES: usize = 4;

/// A plan of four cores that share two resources.
fn plan() -> Plan {
    let tasks = (0..CORES).map(|core| {
        let (first, second) = if core % 2 == 0 { ("g", "h") } else { ("h", "g") };
        format!(
            "task,t{core},{core},9,9,0\nop,lock,{first}\nop,run,1\nop,unlock,{first}\n\
             op,lock,{second}\nop,run,1\nop,unlock,{second}\n"
        )
    });
    let head = "msrp,1\ncores,4\nticks,60\nresource,g\nresource,h\n".to_owned();
    Plan::new(tasks.fold(head, |text, task| text + &task)).expect("the plan is accepted")
}

fn run() -> (Run, Vec<Core>) {
    let mut run = Run::new(&plan()).expect("memory suffices");
    let cores = run.cores().expect("memory suffices");
    (run, cores)
}

/// Drives a core to its end, and sends what it does.
fn drive(mut core: Core, log: &Sender<(Row, Option<u32>)>) -> Result<Core, Error> {
    loop {
        match core.turn()? {
            Turn::Row { row, place } => {
                log.send((row, place)).map_err(|_| Error::Usage)?;
                core.arrive()?;
            }
            Turn::Wait => thread::yield_now(),
            Turn::Done => return Ok(core),
        }
    }
}

/// The cores after their last tick, and what they did.
fn driven(cores: Vec<Core>) -> (Vec<Core>, Vec<(Row, Option<u32>)>) {
    let (log, rows) = channel();
    let threads: Vec<_> = cores
        .into_iter()
        .map(|core| {
            let log = log.clone();
            thread::spawn(move || drive(core, &log))
        })
        .collect();
    drop(log);
    let cores = threads.into_iter().map(|thread| thread.join().expect("no panic").expect("no wrong use")).collect();
    (cores, rows.into_iter().collect())
}

#[test]
fn threads_make_a_legal_run() {
    let (mut run, cores) = run();
    assert_eq!(cores.len(), CORES);
    let (cores, mut log) = driven(cores);
    for mut core in cores {
        assert_eq!(run.join(&mut core), Ok(()));
    }
    let trace = run.trace(TextVersion::Two).expect("all cores are joined");
    assert_eq!(audit(&plan(), trace), Ok(()));

    log.sort_by_key(|(row, place)| row.rank(*place));
    let mut auditor = Auditor::new(&plan()).expect("memory suffices");
    assert_eq!(log.iter().try_for_each(|(row, _)| auditor.feed(row)), Ok(()));
    assert_eq!(auditor.end(), Ok(()));
}

#[test]
fn wrong_use_changes_nothing() {
    let mut run = Run::new(&plan()).expect("memory suffices");
    let mut first = run.next_core().ok().flatten().expect("a core is there");
    assert_eq!((first.turn(), first.arrive()), (Ok(Turn::Wait), Err(Error::Usage)));
    let mut others = run.cores().expect("memory suffices");
    assert_eq!((others.len(), run.next_core().map(|core| core.is_none())), (CORES - 1, Ok(true)));

    assert!(matches!(first.turn(), Ok(Turn::Row { row: Row { tick: 0, core: 0, .. }, .. })));
    assert_eq!(first.turn(), Err(Error::Usage));
    assert_eq!((first.arrive(), first.turn()), (Ok(()), Ok(Turn::Wait)));
    assert_eq!(run.join(&mut first), Err(Error::Usage), "it has ticks left");
    assert_eq!(run.trace(TextVersion::Two), Err(Error::Usage));

    let turned = others.iter_mut().try_for_each(|core| core.turn().and_then(|_| core.arrive()));
    assert_eq!(turned, Ok(()));
    assert!(matches!(first.turn(), Ok(Turn::Row { row: Row { tick: 1, .. }, .. })));
}

#[test]
fn a_run_takes_only_its_next_core() {
    let (mut run_1, cores) = run();
    let (mut run_2, others) = run();
    let (mut cores, mut others) = (driven(cores).0, driven(others).0);
    assert_eq!(run_2.join(&mut cores[0]), Err(Error::Usage), "it is of another run");
    assert_eq!(run_1.join(&mut cores[1]), Err(Error::Usage), "it isn't the next one");
    assert_eq!(cores.iter_mut().try_for_each(|core| run_1.join(core)), Ok(()));
    assert_eq!((run_1.join(&mut cores[0]), cores[0].turn()), (Err(Error::Usage), Err(Error::Usage)));
    assert_eq!(others.iter_mut().try_for_each(|core| run_2.join(core)), Ok(()));
    assert!(run_1.trace(TextVersion::One).map_or(false, |trace| trace.starts_with("msrp-trace,1,4,60\n")));
}

#[test]
fn cores_outlive_their_run() {
    let (run, cores) = run();
    drop(run);
    assert_eq!(driven(cores).1.len(), 4 * 60);
}
