//! Scripts that are refused or stopped change no other; what becomes of the areas.

use super::{class, fed, flips, of, quiet, refused, toggle};
use crate::build::{Circuit, Gate, NOTHING, Script, bytes_of};
use crate::case::Class;
use crate::circuits::vehicles;
use crate::words::words;

pub fn classes() -> Vec<Class> {
    let mut classes: Vec<Class> = [8, 9, 10].into_iter().flat_map(refusal).collect();
    classes.extend([stopped(11), stopped(12), stopped_alone(), full_between()]);
    classes.extend(some_refused());
    classes.extend([
        toggles("no-ticks-alone", "One script of no ticks is played: the areas are zero.", &[flips(0)]),
        toggles(
            "no-ticks-between",
            "Only a script of no ticks is played: the areas are zero, the log stays as it was.",
            &[refused(8), flips(0), refused(10)],
        ),
        toggles(
            "unlike",
            "Flips, quiet ticks, no ticks and a refusal: each has its own answer.",
            &[flips(3), quiet(2), flips(0), refused(10), quiet(1), flips(1)],
        ),
        vans(),
    ]);
    classes
}

/// A script that is refused with this number, between others and alone.
fn refusal(number: u8) -> [Class; 2] {
    let (between, alone) = (format!("refused-{number}-between"), format!("refused-{number}-alone"));
    let shows = format!("A script refused {number} between two that are played.");
    let between = toggles(&between, &shows, &[flips(1), refused(number), flips(2)]);
    let shows = format!("One script, refused {number}: the areas stay as they were.");
    [between, toggles(&alone, &shows, &[refused(number)])]
}

fn some_refused() -> [Class; 5] {
    let sixteen = |k: usize| -> Vec<Vec<u8>> {
        (0..16).map(|n| if n == k { flips(2) } else { refused(8 + n as u8 % 3) }).collect()
    };
    [
        toggles(
            "all-refused",
            "All three are refused: log and areas stay as they were.",
            &[refused(8), refused(9), refused(10)],
        ),
        toggles("first-refused", "The first is refused, the second played.", &[refused(9), flips(1)]),
        toggles("last-refused", "The last is refused, the first played.", &[flips(1), refused(9)]),
        toggles("first-of-16", "Of sixteen the first alone is played.", &sixteen(0)),
        toggles("last-of-16", "Of sixteen the last alone is played.", &sixteen(15)),
    ]
}

fn toggles(name: &str, shows: &str, scripts: &[Vec<u8>]) -> Class {
    class(name, shows, &toggle().0, of(scripts))
}

/// Three World events: one flips a Toggle, one sets off a ring of two calls that
/// stops with 12, one a ring of one call that stops with 11.
pub(super) fn stopping() -> (Circuit, [Gate; 3]) {
    let mut c = Circuit::new();
    c.constant(7);
    let flip = c.world_event(0);
    let toggle = c.toggle(1);
    c.call(flip, toggle);
    let [twelve, eleven] = [2, 1].map(|calls| {
        let world = c.world_event(0);
        let ring = c.reroute(NOTHING);
        c.call(world, ring);
        (0..calls).for_each(|_| c.call(ring, ring));
        world
    });
    (c, [flip, twelve, eleven])
}

/// A tick that flips, one that stops, and one that is not reached.
fn stops(flip: Gate, stop: Gate) -> Vec<u8> {
    Script::new().tick(0.25).give(flip, 1).tick(0.25).fire(stop).tick(0.25).give(flip, 1).bytes()
}

fn stopped(stop: usize) -> Class {
    let (c, [flip, twelve, eleven]) = stopping();
    let script = stops(flip, if stop == 12 { twelve } else { eleven });
    let shows = format!("A script stopped by {stop} in its second tick, between two that are played.");
    class(format!("stopped-{stop}-between"), shows, &c, of(&[fed(flip, 1), script, fed(flip, 2)]))
}

fn stopped_alone() -> Class {
    let (c, [_, twelve, _]) = stopping();
    let script = Script::new().tick(0.25).fire(twelve).bytes();
    class("stopped-12-alone", "One script, stopped by 12 in tick 1: the areas are zero.", &c, of(&[script]))
}

/// Parts of one record.
fn full_between() -> Class {
    let scripts = [flips(1), flips(5), flips(1)];
    let mut class =
        toggles("stopped-13-between", "A script stopped by 13 between two that are played.", &scripts);
    class.lent.log = 3 * 136;
    class
}

/// Stretches of a van's own script: the first ticks, and later ones, which
/// begin at the start all the same.
fn vans() -> Class {
    let van = vehicles::cases().swap_remove(0);
    let scripts = [0..8, 40..48, 0..0, 200..206].map(|ticks| stretch(&van.script, ticks));
    let shows = "A van, with stretches of its script: each begins at the start.";
    Class::new("class-of-vans", shows, van.circuit, of(&scripts))
}

/// These ticks of a script.
fn stretch(script: &[u8], ticks: std::ops::Range<usize>) -> Vec<u8> {
    let words = words(script).expect("whole words");
    let (t, s) = (words[0] as usize, words[1] as usize);
    let (lengths, counts) = (&words[2..][..t], &words[2 + t..][..t]);
    let (gates, constants) = (&words[2 + 2 * t..][..s], &words[2 + 2 * t + s..][..s]);
    let stimuli = |counts: &[i64]| counts.iter().sum::<i64>() as usize;
    let first = stimuli(&counts[..ticks.start]);
    let of = first..first + stimuli(&counts[ticks.clone()]);
    let sizes = [ticks.len() as i64, of.len() as i64];
    let parts = [&lengths[ticks.clone()], &counts[ticks], &gates[of.clone()], &constants[of]];
    bytes_of(&[&sizes[..], &parts.concat()].concat())
}
