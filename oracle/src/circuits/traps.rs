//! One circuit or more for each place where a port goes wrong.

mod chains;
mod delays;
mod order;
mod settling;

use super::Case;

pub fn cases() -> Vec<Case> {
    [settling::cases(), delays::cases(), order::cases(), chains::cases()].concat()
}
