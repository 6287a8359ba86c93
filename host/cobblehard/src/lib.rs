//! Cobblehard for Rust: a proved model of the EMC2305 fan controller, and of the event logs that drive it.
//!
//! ```
//! use cobblehard::{run, Event};
//!
//! let mut log = Vec::new();
//! for event in [
//!     Event::PowerOn { address: 0x2C },
//!     Event::Write { address: 0x2C, bytes: &[0x30, 0x80] }, // fan 1's Setting
//!     Event::Read { address: 0x2C, count: 1 },
//! ] {
//!     event.append_to(&mut log)?;
//! }
//! let (outcome, replies) = run(&log);
//! assert_eq!(outcome.stop, None);
//! assert_eq!(replies, [0xFF]); // the fan spins up
//! # Ok::<(), cobblehard::Refusal>(())
//! ```
//!
//! The speeds of the fans over a log, in whole RPM:
//!
//! ```
//! use cobblehard::{speeds, Event};
//!
//! let mut log = Vec::new();
//! for event in [
//!     Event::PowerOn { address: 0x2C },
//!     Event::Sample { fan: 1, count: 2048 },
//!     Event::Sample { fan: 1, count: 1024 },
//! ] {
//!     event.append_to(&mut log)?;
//! }
//! let report = speeds(&log, 2); // two poles: 7864320 / count, as Configuration 1 is after power-on
//! assert_eq!(report.stop, None);
//! assert_eq!((report.fans[0].lowest, report.fans[0].highest), (3840, 7680));
//! # Ok::<(), cobblehard::Refusal>(())
//! ```
//!
//! [`Event::PowerOn`] powers on an EMC2305, which has five fans, and [`Event::PowerOnPart`] a part with fewer. Registers of a
//! fan that the part does not have read 00h, and a run walks over samples and wishes for it:
//!
//! ```
//! use cobblehard::{run, Event};
//!
//! let mut log = Vec::new();
//! for event in [
//!     Event::PowerOnPart { address: 0x2C, fans: 2 },
//!     Event::Sample { fan: 3, count: 2048 },
//!     Event::Write { address: 0x2C, bytes: &[0x4F] }, // the pointer, to the last register of fan 2
//!     Event::Read { address: 0x2C, count: 3 },
//! ] {
//!     event.append_to(&mut log)?;
//! }
//! let (outcome, replies) = run(&log);
//! assert_eq!((outcome.stop, outcome.records), (None, 4));
//! assert_eq!(replies, [0xF8, 0x00, 0x00]);
//! # Ok::<(), cobblehard::Refusal>(())
//! ```
//!
//! It needs libcobblehard.a and libcobblehard_speeds.a, which `tools/build` makes of the crates of these names; see build.rs.

#[cfg(not(all(target_arch = "x86_64", target_os = "linux", target_pointer_width = "64")))]
compile_error!("libcobblehard.a is for Linux on x86-64");

mod c;
mod event;
mod refusal;
mod run;
mod speeds;

pub use event::{read, records, Event, Records, LONGEST_RECORD};
pub use refusal::{Reason, Refusal};
pub use run::{replies_room, run, run_into, Run};
pub use speeds::{rpm, rpm_by_high_byte, speeds, speeds_into, Figures, Speeds};
