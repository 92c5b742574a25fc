//! The player for a host program: [`run`] plays a script over a circuit,
//! [`class`] a book of up to 16 scripts, [`check`] only asks whether a script
//! could be played, [`size`] how large a run can get, and [`hours`] reports on a
//! finished log. They are the proved functions of the Rattle crate `player`;
//! beside them are those of `leaves`. To build: `rt lib` in
//! crates/player and in crates/leaves of the project's root. `cargo test --offline --release`
//! compares them with the oracle and the hardware.

mod class;
mod hours;
mod player;
mod size;

pub use class::{ClassAnswer, book, class, parts};
pub use hours::{DriverHours, HoursError, REPORT_BYTES, Report, Spent, hours, hours_into};
pub use player::{Answer, check, run, text};
pub use size::{Size, SizeError, UnitSteps, size};

// Each takes and gives numbers, and is proved to have a result for all of them.
unsafe extern "C" {
    /// The bits of the f32 nearest to an f64, ties to even.
    #[link_name = "hazhirun_narrow"]
    pub safe fn narrow(bits: u64) -> u32;

    /// Whether narrowing changes an f64: its f32 is not equal to it. A NaN, which
    /// is equal to nothing, is changed.
    #[link_name = "hazhirun_narrow_changes"]
    pub safe fn narrow_changes(bits: u64) -> bool;

    /// Whether an f64 is neither an infinity nor a NaN.
    #[link_name = "hazhirun_is_finite"]
    pub safe fn is_finite(bits: u64) -> bool;

    /// The bits of the f64 nearest to an Int, ties to even.
    #[link_name = "hazhirun_of_int"]
    pub safe fn of_int(z: i64) -> u64;

    /// An f64 without its fraction, or the nearer end of the range of an Int.
    #[link_name = "hazhirun_to_int"]
    pub safe fn to_int(bits: u64) -> i64;

    /// The bits of the f64 sum.
    #[link_name = "hazhirun_plus64"]
    pub safe fn plus64(a: u64, b: u64) -> u64;

    /// At most, of f64.
    #[link_name = "hazhirun_le64"]
    pub safe fn le64(a: u64, b: u64) -> bool;

    /// Below, of f64.
    #[link_name = "hazhirun_lt64"]
    pub safe fn lt64(a: u64, b: u64) -> bool;

    /// Equal, of f64.
    #[link_name = "hazhirun_eq64"]
    pub safe fn eq64(a: u64, b: u64) -> bool;

    /// The bits of the f32 sum.
    #[link_name = "hazhirun_plus32"]
    pub safe fn plus32(a: u32, b: u32) -> u32;

    /// At most, of f32.
    #[link_name = "hazhirun_le32"]
    pub safe fn le32(a: u32, b: u32) -> bool;
}
