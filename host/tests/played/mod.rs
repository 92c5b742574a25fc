//! Runs of cases by the proved `run`.

use hazhirun_host::{Answer, run};
use oracle::circuits::Case;

/// The log that a case's run writes, cut to the bytes told, if it is played.
pub fn log_of_run(case: &Case) -> Option<Vec<u8>> {
    let mut log = vec![0; case.lent.log];
    let [mut values, mut units, mut delays] =
        [case.lent.values, case.lent.units, case.lent.delays].map(|length| vec![0; length]);
    match run(&case.circuit, &case.script, &mut log, &mut values, &mut units, &mut delays) {
        Answer::Refused(_) => None,
        Answer::Played { bytes, .. } => {
            log.truncate(bytes);
            Some(log)
        }
    }
}
