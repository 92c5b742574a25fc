//! A circuit that is as large as it can be.

use oracle::build::{Circuit, Gate, QUEUE_TICKS, SEND_EVENT, Script};

/// The largest circuit there is: eight Queues, SendEvents fed by them, and
/// `worlds` WorldEvents, which have no inputs. Two stimuli of three ticks each
/// go to a World.
pub fn largest(worlds: usize, ticks: usize) -> (Circuit, Script) {
    let mut c = Circuit::new();
    let worlds: Vec<Gate> = (0..worlds).map(|_| c.world_event(0)).collect();
    let queues: Vec<Gate> = (0..8).map(|k| c.gate(QUEUE_TICKS, k)).collect();
    let sends: Vec<Gate> = (0..56 - worlds.len()).map(|k| c.gate(SEND_EVENT, k as i64)).collect();
    for (k, &send) in sends.iter().enumerate() {
        c.feed(send.pin("channel"), k as i64);
        for data in 1..=8 {
            let from = queues[k % 8].out(&format!("DataOut{data}"));
            c.feed(send.pin(&format!("DataIn{data}")), from);
        }
    }
    for k in 0..256 {
        let from = queues[k % 8].exit();
        c.call(from, sends[k % sends.len()]);
    }
    let mut s = Script::new();
    for t in 0..ticks {
        s.tick(0.25);
        if t % 3 != 0 {
            s.give(worlds[0], 1);
        }
    }
    (c, s)
}
