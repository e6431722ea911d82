// Audits a trace from Rust, by the crate msrp.

use msrp::{audit, simulate, why, Error, Order, Plan, TextVersion};

fn main() -> Result<(), Error> {
    let plan = Plan::new("msrp,1\ncores,1\nticks,2\ntask,a,0,2,2,0\nop,run,1\n")?;
    let trace = simulate(&plan, Order::Ascending, TextVersion::Two)?;
    println!("the run: {:?}", audit(&plan, &trace));
    let faulty = trace.replace("1,0,idle,-,-,-,-", "1,0,run,a,0,-,-");
    if let Err(fault) = audit(&plan, &faulty) {
        println!("with another row: {fault}");
        println!("{}", why(&plan, &faulty)?.lines().take(4).collect::<Vec<_>>().join("\n"));
    }
    if let Err(refusal) = Plan::new("msrp,1\n\ncores,9\n") {
        println!("another plan: {refusal}");
    }
    Ok(())
}
