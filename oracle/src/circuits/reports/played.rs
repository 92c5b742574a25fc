//! A log that a run wrote: a card slot, and a button that chooses the activity.

use crate::build::{Circuit, bytes_of};
use crate::case::Report;
use crate::hours::Named;

pub fn reports() -> Vec<Report> {
    let mut c = Circuit::new();
    c.world_event(0);
    let button = c.world_event(1);
    let activity = c.cycle(2, 4);
    c.call(button, activity);
    c.constant(7);
    c.constant(9);
    let named = Named { driver: 1, activity: 6, length: 250 };
    let shows = "Cards 7 and 9, and a button that is pressed twice: the first tick has no activity.";
    vec![Report::new("report-of-a-run", shows, c.bytes(), bytes_of(&LOG.concat()), named)]
}

/// What a run writes where card 7 comes in tick 1 and card 9 in tick 4, where the
/// button is pressed in the ticks 2 and 5, and the slot fires again in tick 6.
const LOG: [&[i64]; 6] = [
    &[1, 0, 1, 0, 0, 0, 0, 0, 2, 0, 1, 0, 0, 0, 0, 0, 0, 7, 0, 0, 0, 0, 0],
    &[2, 1, 1, 0, 0, 0, 0, 1, 2, 0, 1, 0, 0, 0, 0, 1, 0, 7, 0, 0, 0, 0, 1],
    &[3, 0, 0, 0, 0, 0, 0, 0, 1, 0, 0, 0, 0, 1, 0, 7, 0, 0, 0, 0, 1],
    &[4, 0, 1, 0, 0, 0, 0, 0, 2, 0, 1, 0, 0, 0, 0, 1, 0, 9, 0, 0, 0, 0, 1],
    &[5, 1, 1, 0, 0, 0, 0, 1, 2, 0, 1, 0, 0, 0, 0, 1, 0, 9, 0, 0, 0, 0, 2],
    &[6, 0, 1, 0, 0, 0, 0, 0, 2, 0, 1, 0, 0, 0, 0, 1, 0, 9, 0, 0, 0, 0, 2],
];
