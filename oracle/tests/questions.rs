//! The questions: each bound accepted at its edge and refused past it, and the
//! order they are asked in.

mod common;

use common::{Pin, Plan, bytes};
use oracle::{Answer, Lent, check, run};

/// Words changed by hand: place and new word.
type Changes<'a> = &'a [(usize, i64)];

fn changed(words: &[i64], changes: Changes) -> Vec<i64> {
    let mut words = words.to_vec();
    for &(at, word) in changes {
        words[at] = word;
    }
    words
}

/// A World, a Var, a VarSet of it and a Reroute, with one of each constant;
/// a script of two ticks with a stimulus each.
///
/// Words: 0 sizes; 4 constant kinds, 7 contents; 10 gate kinds, 14 ranks;
/// 18 sources (Var 18, VarSet 19 to 21, Reroute 22), 23 stored; 28 from, 30
/// to. Outputs: World 0 (exec) and 1, Var 2, VarSet 3 (exec), Reroute 4.
fn base() -> (Vec<i64>, Vec<i64>) {
    let mut plan = Plan::default();
    plan.gate(28, 0, &[]);
    plan.gate(5, 0, &[Pin::Float(0.5)]);
    plan.gate(19, 0, &[Pin::Nothing, Pin::Int(1), Pin::Bool(true)]);
    plan.gate(2, 0, &[Pin::From(0, 1)]);
    plan.call(0, 0, 2, 0);
    plan.call(0, 0, 3, 0);
    plan.words(&[(0.25, &[(0, Pin::Int(1))]), (0.25, &[(0, Pin::Nothing)])])
}

/// The answer of `check` to the base circuit with these changes.
fn circuit(changes: Changes) -> u8 {
    let (circuit, script) = base();
    check(&bytes(&changed(&circuit, changes)), &bytes(&script))
}

/// The answer of `check` to the base script with these changes.
fn script(changes: Changes) -> u8 {
    let (circuit, script) = base();
    check(&bytes(&circuit), &bytes(&changed(&script, changes)))
}

#[test]
fn the_base_is_as_told() {
    let (circuit, script) = base();
    let float = 0.5f64.to_bits() as i64;
    let quarter = 0.25f64.to_bits() as i64;
    #[rustfmt::skip]
    let words = [
        4, 3, 5, 2, 2, 1, 3, float, 1, 1, 28, 5, 19, 2, 0, 0, 0, 0,
        -1, -1, -1, -1, 1, 1, 0, 2, 3, 0, 0, 0, 2, 8,
    ];
    assert_eq!(circuit, words);
    assert_eq!(script, [2, 2, quarter, quarter, 1, 1, 0, 0, 2, 0]);
    assert_eq!(check(&bytes(&circuit), &bytes(&script)), 0);
}

#[test]
fn question_1_bytes_and_sizes() {
    let (circuit, script) = base();
    let (circuit, script) = (bytes(&circuit), bytes(&script));
    let long = [circuit.clone(), vec![0; 8]].concat();
    assert_eq!(check(&long, &script), 1);
    assert_eq!(check(&long[..long.len() - 7], &script), 1);
    assert_eq!(check(&circuit[..circuit.len() - 8], &script), 1);
    assert_eq!(check(&[], &script), 1);
    assert_eq!(check(&bytes(&[1, 0, 0]), &script), 1);
    assert_eq!(check(&bytes(&[0, 0, 0, 0]), &script), 1);
    assert_eq!(check(&bytes(&[1, 0, 0, 0, 28, 0]), &bytes(&[0, 0])), 0);
    for (at, word) in [(0, -1), (1, -1), (2, -1), (3, -1), (0, i64::MIN), (1, i64::MAX), (3, 1 << 62)] {
        assert_eq!(check(&bytes(&changed(&[1, 0, 0, 0, 28, 0], &[(at, word)])), &script), 1);
    }
}

/// G gates of a kind, K constants, and C calls from output 0 to input 0.
fn sized(g: usize, kind: i64, inputs: usize, k: usize, c: usize) -> u8 {
    let i = g * inputs;
    let mut words = vec![g as i64, k as i64, i as i64, c as i64];
    words.extend(vec![1; 2 * k]);
    words.extend(vec![kind; g]);
    words.extend(vec![0; g]);
    words.extend(vec![-1; i]);
    words.extend(vec![0; i]);
    words.extend(vec![0; 2 * c]);
    check(&bytes(&words), &bytes(&[0, 0]))
}

#[test]
fn question_1_bounds() {
    assert_eq!(sized(64, 28, 0, 0, 0), 0);
    assert_eq!(sized(65, 28, 0, 0, 0), 1);
    assert_eq!(sized(1, 28, 0, 64, 0), 0);
    assert_eq!(sized(1, 28, 0, 65, 0), 1);
    assert_eq!(sized(1, 2, 1, 0, 256), 0);
    assert_eq!(sized(1, 2, 1, 0, 257), 1);
    assert_eq!(sized(64, 16, 10, 0, 0), 7, "640 inputs pass question 1, 64 Queues not 7");
    assert_eq!(sized(1, 2, 641, 0, 0), 1);
    assert_eq!(sized(1, 2, 640, 0, 0), 3);
}

#[test]
fn question_2_constants() {
    for kind in [0, 4, -1] {
        assert_eq!(circuit(&[(5, kind)]), 2);
    }
    let float = |f: f64| circuit(&[(7, f.to_bits() as i64)]);
    assert_eq!([float(f64::MAX), float(f64::MIN), float(-0.0), float(5e-324)], [0; 4]);
    assert_eq!([float(f64::INFINITY), float(f64::NEG_INFINITY), float(f64::NAN)], [2; 3]);
    assert_eq!([circuit(&[(9, 0)]), circuit(&[(9, 2)]), circuit(&[(9, -1)])], [0, 2, 2]);
}

#[test]
fn question_3_gates() {
    assert_eq!([circuit(&[(10, 0)]), circuit(&[(10, 32)]), circuit(&[(10, -1)])], [3; 3]);
    assert_eq!([circuit(&[(14, 65_535)]), circuit(&[(14, 65 * 65_536)]), circuit(&[(14, -1)])], [0, 3, 3]);
    assert_eq!(circuit(&[(13, 3)]), 3, "an input too many");
    assert_eq!(circuit(&[(13, 18)]), 3, "an input too few");
}

/// Kinds and bodies of Loops: of the base a word of 65,536 is a body without a
/// Loop.
#[test]
fn question_3_loops() {
    let words = [65_535, 65_536, 64 * 65_536 + 65_535, 65 * 65_536, -1, -65_536, i64::MIN, i64::MAX];
    assert_eq!(words.map(|word| circuit(&[(14, word)])), [0, 19, 19, 3, 3, 3, 3, 3]);
    // A gate without inputs and one output, in place of the World event, is none of these.
    let kinds = [28, 29, 30, 31, 32];
    assert_eq!(kinds.map(|kind| circuit(&[(10, kind)])), [0, 3, 3, 3, 3]);
    let alone = |kind: i64, inputs: usize| {
        let sizes = [1, 0, inputs as i64, 0, kind, 0];
        let words = [&sizes[..], &vec![-1; inputs], &vec![0; inputs]].concat();
        check(&bytes(&words), &bytes(&[0, 0]))
    };
    // A Loop alone has no entry, an entry alone no Loop.
    assert_eq!([alone(29, 4), alone(30, 1), alone(31, 1), alone(32, 1)], [19, 4, 0, 3]);
    assert_eq!([alone(29, 3), alone(29, 5), alone(30, 0), alone(31, 2)], [3; 4]);
}

/// A World event 0, a Loop 1 with its entry 2 and a Toggle 3 in its body, and a
/// Loop 4 in that body with its entry 5; the words of their ranks.
fn looped(words: [i64; 6], settings: [Pin; 2], calls: &[(usize, usize, usize)]) -> u8 {
    let mut plan = Plan::default();
    plan.gate(28, words[0], &[]);
    plan.gate(29, words[1], &[]);
    plan.gate(30, words[2], &[settings[0]]);
    plan.gate(22, words[3], &[]);
    plan.gate(29, words[4], &[]);
    plan.gate(30, words[5], &[settings[1]]);
    for &(from, output, to) in calls {
        plan.call(from, output, to, 0);
    }
    let (circuit, script) = plan.words(&[(0.25, &[(0, Pin::Nothing)])]);
    check(&bytes(&circuit), &bytes(&script))
}

#[test]
fn question_19_bodies() {
    use Pin::Int;
    const B: i64 = 65_536;
    let names = [Int(1), Int(4)];
    let words = [0, 0, 2 * B, 2 * B, 2 * B, 5 * B];
    let with = |at: usize, word: i64| {
        let mut words = words;
        words[at] = word;
        looped(words, names, &[])
    };
    assert_eq!(looped(words, names, &[(0, 0, 1), (2, 0, 3), (2, 0, 4), (3, 0, 4), (4, 0, 3)]), 0);
    for call in [(0, 0, 3), (0, 0, 4), (2, 0, 1), (3, 0, 1), (1, 0, 3), (5, 0, 3), (5, 0, 4), (5, 0, 1)] {
        assert_eq!(looped(words, names, &[call]), 19, "{call:?}");
    }
    assert_eq!([with(3, 0), with(3, 5 * B), with(4, 0), with(3, 2 * B + 7)], [0; 4], "elsewhere");
    assert_eq!([with(3, B), with(3, 3 * B), with(3, 4 * B), with(3, 6 * B), with(3, 64 * B)], [19; 5], "no Loop's");
    assert_eq!([with(2, 0), with(2, 5 * B), with(5, 0), with(5, 2 * B)], [19; 4], "entries elsewhere");
    assert_eq!([with(1, 2 * B), with(4, 5 * B), with(1, 5 * B)], [19; 3], "rings");
    let named = |a, b| looped(words, [a, b], &[]);
    assert_eq!([named(Int(1), Int(1)), named(Int(4), Int(4)), named(Int(4), Int(1))], [19; 3]);
    let others = [Int(0), Int(2), Int(6), Int(-1), Pin::Nothing, Pin::Float(4.0), Pin::Bool(true)];
    assert_eq!(others.map(|with| named(Int(1), with)), [4; 7]);
}

#[test]
fn question_4_sources_and_constants() {
    assert_eq!([circuit(&[(22, 2)]), circuit(&[(22, 1)])], [0; 2], "value outputs");
    assert_eq!([circuit(&[(22, 0)]), circuit(&[(22, 3)])], [4; 2], "exec outputs");
    assert_eq!([circuit(&[(22, 5)]), circuit(&[(22, -2)]), circuit(&[(22, i64::MAX)])], [4; 3]);
    assert_eq!([circuit(&[(27, 1)]), circuit(&[(22, -1), (27, 3)])], [4, 0], "one of the two");
    assert_eq!([circuit(&[(22, -1), (27, 4)]), circuit(&[(22, -1), (27, -1)])], [4; 2]);
    assert_eq!([circuit(&[(24, 1)]), circuit(&[(19, 1)])], [4, 0], "an E");
    assert_eq!(circuit(&[(18, 1), (23, 0)]), 4, "a source on a setting");
}

/// A gate of this kind with these pins, beside a Var and a World.
fn with_gate(kind: i64, pins: &[Pin]) -> u8 {
    let mut plan = Plan::default();
    plan.gate(5, 0, &[]);
    plan.gate(28, 0, &[]);
    plan.gate(kind, 0, pins);
    let (circuit, script) = plan.words(&[]);
    check(&bytes(&circuit), &bytes(&script))
}

#[test]
fn question_4_settings() {
    use Pin::{Bool, Float, From, Int, Nothing};
    for kind in [10, 11] {
        for place in [1, 2] {
            let with = |pin| with_gate(kind, &[[Nothing, pin, Nothing], [Nothing, Nothing, pin]][place - 1]);
            assert_eq!([with(Int(-5)), with(Float(1.0)), with(Bool(true)), with(From(0, 0))], [0, 4, 4, 4]);
        }
    }
    for kind in [12, 13] {
        for place in [1, 2] {
            let with = |pin| with_gate(kind, &[[Nothing, pin, Nothing], [Nothing, Nothing, pin]][place - 1]);
            assert_eq!([with(Float(-5.0)), with(Int(1)), with(Bool(true)), with(From(0, 0))], [0, 4, 4, 4]);
        }
    }
    for (kind, read, held) in [(10, 0, 0), (11, 4, 4), (12, 0, 0), (13, 4, 4)] {
        assert_eq!(with_gate(kind, &[From(0, 0)]), read);
        assert_eq!(with_gate(kind, &[Int(1)]), held);
    }
    let clock = |pin| with_gate(14, &[Nothing, Nothing, pin]);
    assert_eq!([clock(Nothing), clock(Float(0.0)), clock(Int(1)), clock(From(0, 0))], [0, 0, 4, 4]);
    for kind in [18, 19] {
        let var = |pin| with_gate(kind, &[Nothing, pin]);
        assert_eq!([var(Int(0)), var(Int(1)), var(Int(2)), var(Int(3)), var(Int(-1))], [0, 4, 4, 4, 4]);
        assert_eq!([var(Nothing), var(Float(0.0)), var(Bool(false)), var(From(0, 0))], [4; 4]);
    }
    for (kind, place) in [(24, 1), (25, 1), (26, 0), (27, 0)] {
        let channel = |pin| with_gate(kind, &[&[Nothing, pin][..], &[pin][..]][1 - place]);
        assert_eq!([channel(Int(0)), channel(Int(255)), channel(Int(256)), channel(Int(-1))], [0, 0, 4, 4]);
        assert_eq!([channel(Nothing), channel(Float(1.0)), channel(Bool(true)), channel(From(0, 0))], [4; 4]);
    }
}

#[test]
fn question_5_calls() {
    assert_eq!([circuit(&[(28, 3)]), circuit(&[(28, 4)])], [0; 2], "exec outputs and RER_Output");
    assert_eq!([circuit(&[(28, 1)]), circuit(&[(28, 2)]), circuit(&[(28, 5)]), circuit(&[(28, -1)])], [5; 4]);
    assert_eq!([circuit(&[(30, 3)]), circuit(&[(30, 9)])], [0; 2], "remote calls");
    for to in [0, 1, 4, 5, 6, 7, 10, 11, -1, -2, i64::MAX, i64::MIN] {
        assert_eq!(circuit(&[(30, to)]), 5, "{to}");
    }
}

#[test]
fn question_6_order_of_pure_gates() {
    assert_eq!(circuit(&[(22, 4)]), 6, "a Reroute of itself");
    let ring = |through: i64| {
        let mut plan = Plan::default();
        plan.gate(2, 0, &[Pin::From(1, 0)]);
        plan.gate(1, 0, &[Pin::Nothing, Pin::From(2, 0)]);
        plan.gate(through, 0, &[Pin::From(0, 0)]);
        let (circuit, script) = plan.words(&[]);
        check(&bytes(&circuit), &bytes(&script))
    };
    assert_eq!([ring(2), ring(1), ring(7), ring(10)], [6, 6, 0, 0]);
    let mut plan = Plan::default();
    plan.gate(2, 0, &[]);
    plan.call(0, 0, 0, 0);
    let (circuit, script) = plan.words(&[]);
    assert_eq!(check(&bytes(&circuit), &bytes(&script)), 0, "a ring of calls");
}

/// The answer of `run` to this many Queues with these areas.
fn queues(many: usize, values: usize, units: usize, delays: usize) -> u8 {
    let mut plan = Plan::default();
    plan.gate(28, 0, &[]);
    for at in 0..many {
        plan.gate(16 + at as i64 % 2, 0, &[]);
    }
    let (circuit, script) = plan.words(&[]);
    match run(&bytes(&circuit), &bytes(&script), &Lent { log: 0, values, units, delays }) {
        Answer::Refused(number) => number,
        Answer::Played { .. } => 0,
    }
}

#[test]
fn question_7_queues_and_areas() {
    const AREA: usize = 65_536;
    assert_eq!([queues(0, AREA, AREA, AREA), queues(1, AREA, AREA, AREA)], [0; 2]);
    assert_eq!([queues(0, AREA - 1, AREA, AREA), queues(0, AREA, AREA - 1, AREA)], [7; 2]);
    assert_eq!([queues(0, AREA, AREA, AREA - 1), queues(1, AREA, AREA, AREA - 1)], [7; 2]);
    assert_eq!([queues(2, AREA, AREA, 2 * AREA), queues(2, AREA, AREA, 2 * AREA - 1)], [0, 7]);
    assert_eq!([queues(8, AREA, AREA, 8 * AREA), queues(9, AREA, AREA, 9 * AREA)], [0, 7]);
    assert_eq!([sized(8, 16, 10, 0, 0), sized(9, 17, 10, 0, 0)], [0, 7], "lent no areas");
}

#[test]
fn question_8_script_bytes_and_sizes() {
    let (circuit, words) = base();
    let (circuit, words) = (bytes(&circuit), bytes(&words));
    let long = [words.clone(), vec![0; 8]].concat();
    assert_eq!(check(&circuit, &long), 8);
    assert_eq!(check(&circuit, &long[..long.len() - 1]), 8);
    assert_eq!(check(&circuit, &words[..words.len() - 8]), 8);
    assert_eq!([check(&circuit, &[]), check(&circuit, &bytes(&[0])), check(&circuit, &bytes(&[0, 0]))], [8, 8, 0]);
    assert_eq!([script(&[(0, -1)]), script(&[(1, -1)]), script(&[(0, i64::MAX)])], [8; 3]);
    let ticks = |t: usize| check(&circuit, &bytes(&[vec![t as i64, 0], vec![0; 2 * t]].concat()));
    assert_eq!([ticks(100_000), ticks(100_001)], [0, 8]);
}

#[test]
fn question_8_stimuli() {
    let stimuli = |s: usize| {
        let mut words = vec![1_024, s as i64];
        words.extend(vec![0; 1_024]);
        words.extend(vec![64; 1_023]);
        words.push(s as i64 - 64 * 1_023);
        words.extend(vec![0; 2 * s]);
        check(&bytes(&base().0), &bytes(&words))
    };
    assert_eq!([stimuli(65_535), stimuli(65_536)], [0, 8]);
}

#[test]
fn question_9_lengths_and_counts() {
    let length = |f: f64| script(&[(2, f.to_bits() as i64)]);
    assert_eq!([length(0.0), length(-0.0), length(3_600.0), length(5e-324)], [0; 4]);
    assert_eq!([length(-5e-324), length(3_600.0f64.next_up()), length(-1.0)], [9; 3]);
    assert_eq!([length(f64::NAN), length(f64::INFINITY), length(f64::NEG_INFINITY)], [9; 3]);
    assert_eq!([script(&[(4, 2), (5, 0)]), script(&[(4, 2)]), script(&[(4, 0)])], [0, 9, 9]);
    assert_eq!([script(&[(4, -1), (5, 3)]), script(&[(4, 65), (5, -63)])], [9; 2]);
    assert_eq!(check(&bytes(&base().0), &bytes(&[0, 1, 0, 0])), 9, "a stimulus without a tick");
    let count = |n: i64| {
        let words = [vec![1, n, 0, n], vec![0; 2 * n as usize]].concat();
        check(&bytes(&base().0), &bytes(&words))
    };
    assert_eq!([count(64), count(65)], [0, 9]);
}

#[test]
fn question_10_stimuli() {
    assert_eq!([script(&[(6, 1)]), script(&[(6, 4)]), script(&[(6, -1)])], [10; 3]);
    assert_eq!([script(&[(8, 3)]), script(&[(8, 0)]), script(&[(8, 4)]), script(&[(8, -1)])], [0, 0, 10, 10]);
}

/// Of two questions answered no the first gives the number.
#[test]
fn the_first_no_is_the_answer() {
    let faults: [(u8, Changes); 6] =
        [(1, &[(3, 3)]), (2, &[(5, 4)]), (3, &[(14, -1)]), (4, &[(27, 1)]), (5, &[(28, 1)]), (6, &[(22, 4)])];
    for (n, (first, a)) in faults.iter().enumerate() {
        for (_, b) in &faults[n..] {
            assert_eq!(circuit(&[*a, *b].concat()), *first);
        }
        let words = changed(&base().0, a);
        assert_eq!(check(&bytes(&words), &[]), *first, "before question 8");
    }
    assert_eq!([circuit(&[(5, 4), (10, 32)]), circuit(&[(5, 4), (13, 3)])], [2; 2]);
    assert_eq!(script(&[(0, 3), (2, -1), (6, 1)]), 8);
    assert_eq!(script(&[(2, -1), (6, 1)]), 9);
    let two_queues = [vec![2, 0, 20, 0, 16, 17, 0, 0], vec![-1; 20], vec![0; 20]].concat();
    assert_eq!(run(&bytes(&two_queues), &[], &Lent::default()), Answer::Refused(7));
    assert_eq!(check(&bytes(&two_queues), &[]), 8);
}
