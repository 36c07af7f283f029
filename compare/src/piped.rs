//! A program tried over pipes: what it prints is held against a function, whether its input comes
//! at once or slowly, whether its reader stays or goes away.

use std::fs::OpenOptions;
use std::io::{Read, Write};
use std::process::{Child, Command, Stdio};
use std::sync::mpsc;
use std::thread;
use std::time::{Duration, Instant};

/// A program that has not ended by then hangs.
const PATIENCE: Duration = Duration::from_secs(10);

/// The first lines of all answers, and of the report.
const HEADS: [&str; 4] = ["from to\n", "track up down\n", "moves spare\n", "refusal place\n"];

pub type Outcome = Result<(), String>;

pub struct Piped {
    /// The program and its arguments.
    pub command: Vec<String>,
    /// What it must print for what it is fed.
    pub due: fn(&[u8]) -> Vec<u8>,
}

impl Piped {
    fn start(&self, output: Stdio, errors: Stdio) -> Result<Child, String> {
        let mut command = Command::new(&self.command[0]);
        command.args(&self.command[1..]).stdin(Stdio::piped()).stdout(output).stderr(errors);
        command.spawn().map_err(|error| format!("{}: {error}", self.command[0]))
    }

    /// Feeds the input in pieces, as fast as they are taken, and compares all that is printed.
    pub fn answers(&self, input: &[u8], piece: usize) -> Outcome {
        self.answers_slowly(input, piece, Duration::ZERO)
    }

    /// The same with a pause after each piece: the program gets no more than that at a time.
    pub fn answers_slowly(&self, input: &[u8], piece: usize, pause: Duration) -> Outcome {
        self.prints(&(self.due)(input), input, piece, pause)
    }

    /// The same where what is due is known.
    pub fn prints(&self, due: &[u8], input: &[u8], piece: usize, pause: Duration) -> Outcome {
        let mut child = self.start(Stdio::piped(), Stdio::null())?;
        let feeder = feed(&mut child, input.to_vec(), piece, pause);
        let mut output = child.stdout.take().expect("piped");
        let printed = in_time(&mut child, move || {
            let mut printed = Vec::new();
            output.read_to_end(&mut printed).map(|_| printed)
        })?;
        ends(&mut child)?;
        let _ = feeder.join();
        let printed = printed.map_err(|error| error.to_string())?;
        if printed != due {
            return Err(format!("it prints {:?}, must print {:?}", shown(&printed), shown(due)));
        }
        Ok(())
    }

    /// Reads so many bytes of the answer and closes the pipe: the program must end, and the bytes
    /// read be the answer's beginning.
    pub fn reader_leaves(&self, input: &[u8], read: usize) -> Outcome {
        let mut child = self.start(Stdio::piped(), Stdio::piped())?;
        let feeder = feed(&mut child, input.to_vec(), input.len(), Duration::ZERO);
        let output = child.stdout.take().expect("piped");
        let printed = in_time(&mut child, move || {
            let mut printed = Vec::new();
            output.take(read as u64).read_to_end(&mut printed).map(|_| printed)
        })?;
        let complaint = complaint(&mut child)?;
        let _ = feeder.join();
        let printed = printed.map_err(|error| error.to_string())?;
        let due = (self.due)(input);
        if !due.starts_with(&printed) || printed.len() < read.min(due.len()) {
            return Err(format!("after {read} bytes read it had printed {:?}", shown(&printed)));
        }
        no_answer(&complaint)
    }

    /// Prints to a device that is full: the program must end.
    pub fn device_is_full(&self, input: &[u8]) -> Outcome {
        let full = OpenOptions::new().write(true).open("/dev/full").map_err(|error| format!("/dev/full: {error}"))?;
        let mut child = self.start(full.into(), Stdio::piped())?;
        let feeder = feed(&mut child, input.to_vec(), input.len(), Duration::ZERO);
        let complaint = complaint(&mut child)?;
        let _ = feeder.join();
        no_answer(&complaint)
    }
}

/// Writes the input in pieces from a thread of its own and closes it. A program may stop reading
/// when it has seen enough.
fn feed(child: &mut Child, input: Vec<u8>, piece: usize, pause: Duration) -> thread::JoinHandle<()> {
    let mut to_program = child.stdin.take().expect("piped");
    thread::spawn(move || {
        for piece in input.chunks(piece.max(1)) {
            if to_program.write_all(piece).is_err() {
                return;
            }
            thread::sleep(pause);
        }
    })
}

/// What a thread makes of the child, or an end to both.
fn in_time<T: Send + 'static>(child: &mut Child, work: impl FnOnce() -> T + Send + 'static) -> Result<T, String> {
    let (done, waiting) = mpsc::channel();
    thread::spawn(move || done.send(work()));
    waiting.recv_timeout(PATIENCE).map_err(|_| {
        let _ = child.kill();
        format!("it has not ended after {} seconds", PATIENCE.as_secs())
    })
}

fn ends(child: &mut Child) -> Outcome {
    let began = Instant::now();
    while child.try_wait().map_err(|error| error.to_string())?.is_none() {
        if began.elapsed() > PATIENCE {
            let _ = child.kill();
            return Err(format!("it has not ended after {} seconds", PATIENCE.as_secs()));
        }
        thread::sleep(Duration::from_micros(200));
    }
    Ok(())
}

/// What the program prints as an error until it ends.
fn complaint(child: &mut Child) -> Result<Vec<u8>, String> {
    let mut errors = child.stderr.take().expect("piped");
    let complaint = in_time(child, move || {
        let mut complaint = Vec::new();
        let _ = errors.read_to_end(&mut complaint);
        complaint
    })?;
    ends(child)?;
    Ok(complaint)
}

/// A program whose answer could not be printed must not answer elsewhere.
fn no_answer(complaint: &[u8]) -> Outcome {
    let text = String::from_utf8_lossy(complaint);
    if HEADS.iter().any(|line| text.contains(line)) {
        return Err(format!("it answered a second time: {:?}", shown(complaint)));
    }
    Ok(())
}

/// The beginning of what was fed or printed.
pub fn shown(bytes: &[u8]) -> String {
    let front = &bytes[..bytes.len().min(200)];
    format!("{}{}", String::from_utf8_lossy(front), if front.len() < bytes.len() { "…" } else { "" })
}
