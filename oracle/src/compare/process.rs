//! Gives a sheet to a program on standard input.

use std::io::{Read, Write};
use std::path::PathBuf;
use std::process::{Child, ChildStdin, Command, ExitStatus, Stdio};
use std::sync::mpsc::{channel, Receiver};
use std::thread;
use std::time::{Duration, Instant};

use super::{Case, Ended, Given};

/// What a program may take for a sheet. The longest one takes milliseconds.
const TIME: Duration = Duration::from_secs(20);

/// Ten times the longest output. A program that writes more is cut off.
const OUTPUT_AT_MOST: u64 = 1 << 20;

const PIECES: usize = 20;
const BETWEEN_PIECES: Duration = Duration::from_millis(1);
const BETWEEN_LOOKS: Duration = Duration::from_micros(200);

/// A program that reads a sheet and prints what it gives.
#[derive(Clone, Debug)]
pub struct Process {
    program: PathBuf,
    time: Duration,
}

impl Process {
    /// The program at this path.
    pub fn new(program: impl Into<PathBuf>) -> Process {
        Process { program: program.into(), time: TIME }
    }

    /// The same with another time to end in.
    pub fn within(self, time: Duration) -> Process {
        Process { time, ..self }
    }

    /// Runs it on this input.
    pub fn run(&self, case: &Case) -> Result<Given, String> {
        let mut command = Command::new(&self.program);
        command.stdin(Stdio::piped()).stdout(Stdio::piped()).stderr(Stdio::piped());
        let child = command.spawn();
        let mut child =
            child.map_err(|error| format!("can't run {}: {error}", self.program.display()))?;
        // Threads do the reading and writing, so that neither side waits for
        // the other with a full pipe.
        let (output, errors) = (gather(child.stdout.take()), gather(child.stderr.take()));
        hand_over(child.stdin.take(), case.clone());
        let ended = wait(&mut child, self.time).map_err(|error| error.to_string())?;
        if ended == Ended::NotInTime {
            // A process of its own may still have the pipes.
            return Ok(Given { output: Vec::new(), errors: Vec::new(), ended });
        }
        let gathered = |part: Receiver<Vec<u8>>| part.recv_timeout(self.time).unwrap_or_default();
        Ok(Given { output: gathered(output), errors: gathered(errors), ended })
    }
}

fn gather(from: Option<impl Read + Send + 'static>) -> Receiver<Vec<u8>> {
    let (sender, receiver) = channel();
    thread::spawn(move || {
        let mut all = Vec::new();
        // What came before an error is worth comparing all the same.
        let _ = from.map(|from| from.take(OUTPUT_AT_MOST).read_to_end(&mut all));
        let _ = sender.send(all);
    });
    receiver
}

/// A program may leave without having read all; that is not judged here.
fn hand_over(to: Option<ChildStdin>, case: Case) {
    thread::spawn(move || {
        let Some(mut to) = to else {
            return;
        };
        if !case.in_pieces {
            let _ = to.write_all(&case.bytes);
            return;
        }
        for piece in case.bytes.chunks(1 + case.bytes.len() / PIECES) {
            let _ = to.write_all(piece);
            thread::sleep(BETWEEN_PIECES);
        }
    });
}

fn wait(child: &mut Child, time: Duration) -> std::io::Result<Ended> {
    let start = Instant::now();
    loop {
        if let Some(status) = child.try_wait()? {
            return Ok(ended_with(status));
        }
        if start.elapsed() > time {
            child.kill()?;
            child.wait()?;
            return Ok(Ended::NotInTime);
        }
        thread::sleep(BETWEEN_LOOKS);
    }
}

fn ended_with(status: ExitStatus) -> Ended {
    status.code().map_or(Ended::BySignal, Ended::WithStatus)
}
