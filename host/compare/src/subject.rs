//! What is compared with the independent model: anything that runs, reads, writes, lists and reports speeds.
use cobblehard::{Event, Refusal};
use model::log::Fault;
use model::replay::Run;
use model::speeds::{self, Speeds};
use std::fmt;
use std::io::{self, Read, Write};
use std::path::{Path, PathBuf};
use std::process::{Command, Stdio};
use std::sync::mpsc;
use std::thread;
use std::time::Duration;

/// After this a program counts as hanging.
const LONGEST_LISTING: Duration = Duration::from_secs(60);

/// A refusal: its number, and the place of the first faulty byte, which goes with those of reading alone.
#[derive(Clone, Copy, PartialEq, Eq)]
pub struct Refused {
    pub number: u8,
    pub fault: Option<usize>,
}

/// In decimal, also among bytes that are shown in hex.
impl fmt::Debug for Refused {
    fn fmt(&self, f: &mut fmt::Formatter<'_>) -> fmt::Result {
        write!(f, "number {}, fault {:?}", self.number, self.fault)
    }
}

/// What a run gives, and the place of the first faulty byte where reading stopped it.
#[derive(Clone, Copy, PartialEq, Eq)]
pub struct Outcome {
    pub run: Run,
    pub fault: Option<usize>,
}

/// In decimal too.
impl fmt::Debug for Outcome {
    fn fmt(&self, f: &mut fmt::Formatter<'_>) -> fmt::Result {
        write!(f, "{:?}, fault {:?}", self.run, self.fault)
    }
}

/// A reading: the event and the place after it, the end, or a refusal.
pub type Reading<'a> = Result<Option<(Event<'a>, usize)>, Refused>;

pub trait Subject {
    fn run(&self, log: &[u8], replies: &mut [u8]) -> Outcome;
    fn read<'a>(&self, log: &'a [u8], place: usize) -> Reading<'a>;
    fn write(&self, event: &Event, out: &mut [u8]) -> Result<usize, Refused>;
    /// The lines, or in words what kept them from being listed.
    fn list(&self, log: &[u8]) -> Result<Vec<u8>, String>;
    /// The report's number, place and records; it lays as many of the 25 figures as there is room for.
    fn speeds(&self, log: &[u8], poles: u64, figures: &mut [u64]) -> (u8, usize, usize);
    /// The report's lines for a program's argument, or in words what kept them from being written.
    fn report(&self, log: &[u8], poles: &str) -> Result<Vec<u8>, String>;
}

/// The independent model.
pub struct Independent;

impl Subject for Independent {
    /// The fault is that of the record at the run's place: at the end, and where the room was short, that has none.
    fn run(&self, log: &[u8], replies: &mut [u8]) -> Outcome {
        let run = model::replay::run(log, replies);
        let fault = model::log::read(log, run.place).err().map(|fault| fault.place);
        Outcome { run, fault }
    }

    fn read<'a>(&self, log: &'a [u8], place: usize) -> Reading<'a> {
        match model::log::read(log, place) {
            Ok(found) => Ok(found.map(|(event, next)| (event_of(&event, log), next))),
            Err(Fault { number, place }) => Err(Refused {
                number,
                fault: Some(place),
            }),
        }
    }

    fn write(&self, event: &Event, out: &mut [u8]) -> Result<usize, Refused> {
        let (event, log) = event_to(event);
        model::log::write(&event, &log, out).map_err(|number| Refused { number, fault: None })
    }

    fn list(&self, log: &[u8]) -> Result<Vec<u8>, String> {
        let mut lines = Vec::new();
        model::listing::list(log, &mut lines);
        Ok(lines)
    }

    fn speeds(&self, log: &[u8], poles: u64, figures: &mut [u64]) -> (u8, usize, usize) {
        let report = speeds::speeds(log, poles);
        lay(&report, figures);
        (report.number, report.place, report.records)
    }

    fn report(&self, log: &[u8], poles: &str) -> Result<Vec<u8>, String> {
        Ok(speeds::list(log, speeds::poles(poles.as_bytes())).into_bytes())
    }
}

/// CR 2, as read: "It lays as many of the 25 as the slice has room for".
pub fn lay(report: &Speeds, figures: &mut [u64]) {
    figures
        .iter_mut()
        .zip(report.figures)
        .for_each(|(entry, figure)| *entry = figure);
}

/// The model's event, which says where its bytes lie, as the wrapper has it.
fn event_of<'a>(event: &model::log::Event, log: &'a [u8]) -> Event<'a> {
    match *event {
        model::log::Event::PowerOn { address } => Event::PowerOn { address },
        model::log::Event::Ticks { count } => Event::Ticks { count },
        model::log::Event::Sample { fan, count } => Event::Sample { fan, count },
        model::log::Event::Wish { fan, drive } => Event::Wish { fan, drive },
        model::log::Event::Transfer {
            address,
            read,
            place,
            length,
        } => {
            let bytes = &log[place..place + length];
            if read {
                Event::Read {
                    address,
                    count: bytes[0],
                }
            } else {
                Event::Write { address, bytes }
            }
        }
        model::log::Event::PowerOnPart { address, fans } => Event::PowerOnPart { address, fans },
    }
}

/// The other way round, with a log that holds just its bytes.
fn event_to(event: &Event) -> (model::log::Event, Vec<u8>) {
    let transfer = |address, read, bytes: &[u8]| {
        (
            model::log::Event::Transfer {
                address,
                read,
                place: 0,
                length: bytes.len(),
            },
            bytes.to_vec(),
        )
    };
    match *event {
        Event::PowerOn { address } => (model::log::Event::PowerOn { address }, Vec::new()),
        Event::Ticks { count } => (model::log::Event::Ticks { count }, Vec::new()),
        Event::Sample { fan, count } => (model::log::Event::Sample { fan, count }, Vec::new()),
        Event::Wish { fan, drive } => (model::log::Event::Wish { fan, drive }, Vec::new()),
        Event::Write { address, bytes } => transfer(address, false, bytes),
        Event::Read { address, count } => transfer(address, true, &[count]),
        Event::PowerOnPart { address, fans } => (model::log::Event::PowerOnPart { address, fans }, Vec::new()),
    }
}

/// The proved model, as a user has it: the library and the programs.
pub struct Proved {
    pub program: PathBuf,
    pub speeds: PathBuf,
}

impl Proved {
    /// With the programs where `tools/build` lays them, or at COBBLEHARD_PROGRAM and COBBLEHARD_SPEEDS; in words, where one is
    /// not there.
    pub fn built() -> Result<Proved, String> {
        Ok(Proved {
            program: built("emc2305_replay", "COBBLEHARD_PROGRAM")?,
            speeds: built("emc2305_speeds", "COBBLEHARD_SPEEDS")?,
        })
    }
}

/// The program of this name, or the one that this variable has.
fn built(name: &str, variable: &str) -> Result<PathBuf, String> {
    let laid = || {
        Path::new(env!("CARGO_MANIFEST_DIR"))
            .join("../../target/bin")
            .join(name)
    };
    let program = std::env::var_os(variable).map_or_else(laid, PathBuf::from);
    if program.is_file() {
        Ok(program)
    } else {
        Err(format!(
            "{} is not there: `tools/build {name}` makes it",
            program.display()
        ))
    }
}

impl Subject for Proved {
    fn run(&self, log: &[u8], replies: &mut [u8]) -> Outcome {
        let run = cobblehard::run_into(log, replies);
        Outcome {
            run: Run {
                number: run.number(),
                place: run.place,
                records: run.records,
                reply_bytes: run.reply_bytes,
            },
            fault: run.stop.and_then(|refusal| refusal.place()),
        }
    }

    fn read<'a>(&self, log: &'a [u8], place: usize) -> Reading<'a> {
        cobblehard::read(log, place).map_err(refused)
    }

    fn write(&self, event: &Event, out: &mut [u8]) -> Result<usize, Refused> {
        event.write_to(out).map_err(refused)
    }

    fn list(&self, log: &[u8]) -> Result<Vec<u8>, String> {
        written_by(&mut Command::new(&self.program), log)
    }

    fn speeds(&self, log: &[u8], poles: u64, figures: &mut [u64]) -> (u8, usize, usize) {
        cobblehard::speeds_into(log, poles, figures)
    }

    /// What it says of a wrong argument on standard error is for people.
    fn report(&self, log: &[u8], poles: &str) -> Result<Vec<u8>, String> {
        written_by(Command::new(&self.speeds).arg(poles).stderr(Stdio::null()), log)
    }
}

fn refused(refusal: Refusal) -> Refused {
    Refused {
        number: refusal.number(),
        fault: refusal.place(),
    }
}

/// What a program writes with a log on its standard input, or in words why not.
fn written_by(command: &mut Command, log: &[u8]) -> Result<Vec<u8>, String> {
    let written = output_of(command, log);
    written.map_err(|error| format!("{}: {error}", Path::new(command.get_program()).display()))
}

/// It fails where the program ends otherwise than well, or not at all.
fn output_of(command: &mut Command, log: &[u8]) -> io::Result<Vec<u8>> {
    let mut child = command.stdin(Stdio::piped()).stdout(Stdio::piped()).spawn()?;
    let (mut stdin, mut stdout) = (child.stdin.take().expect("piped"), child.stdout.take().expect("piped"));
    let (sender, receiver) = mpsc::channel();
    thread::scope(|scope| {
        // A program that stops at a refusal may leave the rest of its input unread, which is no failure.
        scope.spawn(move || stdin.write_all(log));
        scope.spawn(move || {
            let mut lines = Vec::new();
            let read = stdout.read_to_end(&mut lines).map(|_| lines);
            let _ = sender.send(read);
        });
        let read = receiver.recv_timeout(LONGEST_LISTING);
        if read.is_err() {
            child.kill()?;
        }
        let status = child.wait()?;
        match read {
            Ok(lines) if status.success() => lines,
            Ok(_) => Err(io::Error::other(format!("it ended with {status}"))),
            Err(_) => Err(io::Error::other(format!("it did not end within {LONGEST_LISTING:?}"))),
        }
    })
}
