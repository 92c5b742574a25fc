//! Loops from outside: what must come of them by what comes of circuits without.

mod reading;

use oracle::build::*;
use oracle::circuits::Case;
use oracle::generate::{FAMILIES, Random, WITH_LOOPS, valid};
use reading::{Played, circuit_of, read};

/// The case with a Loop and its entry behind its gates, if there is room, and
/// all its own gates in the body of that Loop, which nothing enters.
fn in_a_body(case: &Case) -> Option<Case> {
    let (mut c, gates) = circuit_of(case);
    let repeat = c.repeat(0, 2, NOTHING, NOTHING);
    c.body(repeat);
    c.put_inside(repeat, &gates);
    let room = c.gates.len() <= 64 && c.constants.len() <= 64 && c.inputs.len() <= 640;
    room.then(|| Case { circuit: c.bytes(), ..case.clone() })
}

/// All but the outputs: tick, steps, units, stop and count of each record.
type Heads = Vec<(i64, i64, [Vec<(i64, i64)>; 3], i64, i64)>;

fn heads(p: &Played) -> Heads {
    let lists = |t: &reading::Tick| [t.late.clone(), t.main.clone(), t.carried.clone()];
    p.ticks.iter().map(|t| (t.tick, t.steps, lists(t), t.stop, t.changed)).collect()
}

/// Gates of a body that begin as units, and what their chains call, are played
/// as outside: a body counts only while it runs. The script's constants may
/// have moved by none: those of the Loop are new and come last.
#[test]
fn a_body_that_does_not_run_changes_nothing() {
    let mut compared = 0;
    for family in FAMILIES.into_iter().filter(|family| !WITH_LOOPS.contains(family)) {
        for seed in 0..60 {
            let mut case = valid(seed, family);
            case.lent.log = 1 << 24;
            let Some(inside) = in_a_body(&case) else { continue };
            let (before, after) = (read(&case).unwrap(), read(&inside).unwrap());
            assert_eq!((heads(&before), before.stop), (heads(&after), after.stop), "{}", case.name);
            for (a, b) in before.ticks.iter().zip(&after.ticks) {
                let shown = a.outputs.len();
                assert_eq!(a.outputs, b.outputs[..shown], "{}, tick {}", case.name, a.tick);
                assert!(b.outputs[shown..].iter().all(|&output| output == (0, 0)), "{}", case.name);
            }
            compared += 1;
        }
    }
    assert!(compared > 800, "{compared}");
}

/// A World event, gates whose calls climb, and last a Loop with its entry. With
/// `looped` the World event calls the Loop, whose runs are so many and whose body
/// has the gates; without, it calls so often what the entry would have called.
fn repeated(seed: u64, looped: bool) -> (Case, i64) {
    let mut r = Random::new(seed);
    let mut c = Circuit::new();
    let world = c.world_event(2);
    let vars = [c.var(1), c.var(NOTHING)];
    let kinds =
        [TOGGLE, TOGGLE, CYCLE, CYCLE, BRANCH, VAR_GET, VAR_SET, VAR_SET, SEND_EVENT, BUFFER_TICKS_EXEC];
    let gates: Vec<Gate> = (0..r.between((2, 9))).map(|_| c.gate(r.pick(&kinds), r.pick(&[1, 3]))).collect();
    let seen: Vec<Gate> = [&[world, vars[0], vars[1]][..], &gates].concat();
    let value = |r: &mut Random| -> Feed {
        let from = r.pick(&seen);
        let shows = outputs_of(from.kind).into_iter().any(is_value);
        if shows && r.chance(70) { from.into() } else { (r.below(4) as i64).into() }
    };
    for &g in &gates {
        for pin in inputs_of(g.kind) {
            match pin {
                "S:variable" => c.feed(g.pin("variable"), r.pick(&vars).number),
                "S:channel" => c.feed(g.pin("channel"), 7),
                "S:wait" => c.feed(g.pin("wait"), r.below(3) as i64),
                "Value" | "bCond" | "Count" | "DataIn1" => {
                    let with = value(&mut r);
                    c.feed(g.pin(pin), with);
                }
                _ => {}
            }
        }
    }
    for k in 0..gates.len() {
        for out in outputs_of(gates[k].kind).into_iter().filter(|out| may_call(out)) {
            for _ in 0..r.below(3) {
                if k + 1 < gates.len() {
                    let to = gates[r.between((k + 1, gates.len() - 1))];
                    let from = gates[k].out(out.trim_end_matches('!'));
                    if r.chance(20) { c.remote(from, to) } else { c.call(from, to) }
                }
            }
        }
    }
    let watched = c.select(vars[0], vars[1], world);
    for of in [watched, vars[0], gates[0], gates[gates.len() - 1]] {
        if outputs_of(of.kind).into_iter().any(is_value) {
            c.change_detector(r.pick(&[0, 4]), of);
        }
    }
    c.event_custom(1, 7);
    let runs = r.below(5) as i64;
    let first: Vec<Gate> = (0..r.between((1, 3))).map(|_| r.pick(&gates)).collect();
    let after: Vec<Gate> = (0..r.below(2)).map(|_| c.toggle(0)).collect();
    let repeat = c.repeat(0, runs, NOTHING, NOTHING);
    let entry = c.body(repeat);
    if looped {
        c.put_inside(repeat, &gates);
        c.call(world, repeat);
        c.call_all(repeat, &after);
    }
    for _ in 0..if looped { 1 } else { runs } {
        let from = if looped { entry.exit() } else { world.exit() };
        c.call_all(from, &first);
    }
    if !looped {
        c.call_all(world, &after);
    }
    let names: Vec<i64> = (0..3).map(|n| c.constant(n)).collect();
    let mut s = Script::new();
    for _ in 0..4 {
        s.tick(0.25);
        for _ in 0..r.below(3) {
            s.give(world, r.pick(&names));
        }
    }
    let mut case = Case::new(format!("repeated-{seed}"), "Calls repeated by a Loop, or listed.", &c, &s);
    case.lent.log = 1 << 24;
    (case, repeat.number)
}

/// In the late pass, where nothing is put off, a Loop without Break and Union is
/// what its body calls, as often as it runs, and then what Completed calls; only
/// that entering the Loop is a step. Remote calls are among those of the gates,
/// not of Body: listed, all of these would be found before the first run.
#[test]
fn a_loop_is_its_calls_repeated() {
    let (mut steps, mut units, mut runs) = (0, 0, 0);
    for seed in 0..3_000 {
        let ((looped, gate), (listed, _)) = (repeated(seed, true), repeated(seed, false));
        let (a, b) = (read(&looped).unwrap(), read(&listed).unwrap());
        assert_eq!((a.stop, a.ticks.len()), (b.stop, b.ticks.len()), "{seed}");
        for (k, (x, y)) in a.ticks.iter().zip(&b.ticks).enumerate() {
            let entered = x.late.iter().filter(|unit| unit.0 == 0).count() as i64;
            assert_eq!(x.steps, y.steps + entered, "{seed}, tick {}", x.tick);
            assert_eq!(
                (&x.late, &x.main, &x.carried),
                (&y.late, &y.main, &y.carried),
                "{seed}, tick {}",
                x.tick
            );
            let own = x.outputs.len().saturating_sub(6);
            assert_eq!(x.outputs[..own], y.outputs[..own], "{seed}, tick {}", x.tick);
            steps += y.steps;
            units += x.late.len() + x.main.len();
            runs += if x.stop == 0 { entered * a.shown(k + 1, gate as usize, 1).1 } else { 0 };
        }
    }
    assert!(steps > 50_000 && units > 30_000 && runs > 15_000, "{steps} {units} {runs}");
}
