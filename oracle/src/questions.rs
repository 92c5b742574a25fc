//! The questions, in order: 1 to 5, 19 of document 02 (K5), 6 to 10.

use crate::Lent;
use crate::circuit::Circuit;
use crate::script::Script;

/// The least bytes of an area.
const AREA: usize = 65_536;
/// The most Queues.
const QUEUES: usize = 8;

/// The circuit and the script, or the number of the first question answered
/// no. A call that is lent no areas asks only the first half of question 7.
pub fn ask(circuit: &[u8], script: &[u8], lent: Option<&Lent>) -> Result<(Circuit, Script), u8> {
    let circuit = ask_circuit(circuit, lent)?;
    let script = Script::decode(script, &circuit)?;
    Ok((circuit, script))
}

/// Those of them that do not ask about the script.
pub fn ask_circuit(circuit: &[u8], lent: Option<&Lent>) -> Result<Circuit, u8> {
    let circuit = Circuit::decode(circuit)?;
    let queues = circuit.queues();
    if queues > QUEUES || lent.is_some_and(|lent| !areas_suffice(lent, queues)) {
        return Err(7);
    }
    Ok(circuit)
}

fn areas_suffice(lent: &Lent, queues: usize) -> bool {
    lent.values >= AREA && lent.units >= AREA && lent.delays >= AREA * queues.max(1)
}
