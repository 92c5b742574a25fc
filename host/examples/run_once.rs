//! One run of a stated circuit, with nothing beside it, for a tool that counts its
//! instructions: `run_once NAME` prints the ticks done. tools/instructions
//! calls it.

use hazhirun_host::{Answer, run};
use oracle::circuits;

/// The bytes lent for the log: enough for the longest script.
const LOG: usize = 1 << 26;

fn main() {
    let name = std::env::args().nth(1).expect("the name of a vehicle");
    let case = circuits::all().into_iter().find(|case| case.name == name);
    let case = case.expect("a stated circuit of that name");
    let mut log = vec![0; LOG];
    let lent = [case.lent.values, case.lent.units, case.lent.delays];
    let [mut values, mut units, mut delays] = lent.map(|length| vec![0; length]);
    match run(&case.circuit, &case.script, &mut log, &mut values, &mut units, &mut delays) {
        Answer::Played { stop: 0, ticks, .. } => println!("{ticks}"),
        answer => panic!("{name}: {answer}"),
    }
}
