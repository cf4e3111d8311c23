// Runs the program `shape` on input that comes and output that goes in hard ways, and holds what it prints to the Rust's frames; `tools/feeds`
// builds and runs it.
//   feeds FOLDER COMMAND..     a folder for its files, and the words that start the program
// No contract can say which bytes a read gave and a write took; these runs show it.

#[path = "frames.rs"]
#[allow(dead_code)]
mod frames;

use frames::{hex, line_frame};
use std::fs::File;
use std::io::{Read, Write};
use std::os::fd::OwnedFd;
use std::os::unix::net::{UnixDatagram, UnixStream};
use std::process::{Child, Command, ExitStatus, Stdio};
use std::sync::mpsc::channel;
use std::thread::{self, JoinHandle};
use std::time::{Duration, Instant};

// What it says where the input could not be read, and where the output could not be written.
const UNREAD: &str = "shape: the input could not be read to its end; a line that was not finished is left out\n";
const UNWRITTEN: &str = "shape: the output could not be written; what was written is the beginning of it\n";

const PIECES: [usize; 8] = [1, 2, 3, 5, 7, 4_095, 65_535, 65_536];

// A program that runs, with what it says.
struct Running {
    child: Child,
    said: JoinHandle<Vec<u8>>,
}

// How a run ended.
struct Ended {
    status: ExitStatus,
    out: Vec<u8>,
    said: String,
}

struct Feeds {
    command: Vec<String>,
    runs: usize,
    wrong: usize,
}

// The frames of an input: a line is ended by LF, and by the end of the input, but not by a read that failed.
fn frames_of(input: &[u8], ended: bool) -> Vec<u8> {
    let mut lines: Vec<&str> = std::str::from_utf8(input).unwrap().split('\n').collect();
    let last = lines.pop().unwrap();
    if ended && !last.is_empty() {
        lines.push(last);
    }
    lines.iter().map(|line| line_frame(line) + "\n").collect::<String>().into_bytes()
}

fn collected(mut from: impl Read + Send + 'static) -> JoinHandle<Vec<u8>> {
    thread::spawn(move || {
        let mut all = Vec::new();
        from.read_to_end(&mut all).unwrap();
        all
    })
}

impl Running {
    // The program has ended, or goes on for longer than this.
    fn wait(&mut self, seconds: u64) -> Option<ExitStatus> {
        let began = Instant::now();
        while began.elapsed() < Duration::from_secs(seconds) {
            if let Some(status) = self.child.try_wait().unwrap() {
                return Some(status);
            }
            thread::sleep(Duration::from_millis(1));
        }
        None
    }

    // Waits for the program's end; one that goes on for longer than any run takes is stopped, and has no good status.
    fn end(mut self) -> Ended {
        let out = self.child.stdout.take().map(collected);
        let status = self.wait(30).unwrap_or_else(|| {
            self.child.kill().unwrap();
            self.child.wait().unwrap()
        });
        let out = out.map_or(Vec::new(), |out| out.join().unwrap());
        Ended { status, out, said: String::from_utf8_lossy(&self.said.join().unwrap()).into_owned() }
    }
}

// The first place where two texts differ.
fn difference(out: &[u8], due: &[u8]) -> String {
    let at = out.iter().zip(due).take_while(|(a, b)| a == b).count();
    format!("{} bytes printed, {} due, the same up to byte {at}", out.len(), due.len())
}

impl Feeds {
    fn start(&self, input: impl Into<Stdio>, output: impl Into<Stdio>) -> Running {
        let mut command = Command::new(&self.command[0]);
        let mut child = command.args(&self.command[1..]).stdin(input).stdout(output).stderr(Stdio::piped()).spawn().unwrap();
        let said = collected(child.stderr.take().unwrap());
        Running { child, said }
    }

    // The program started by a shell that first does what `before` says.
    fn after(&self, before: &str) -> Feeds {
        let shell = ["sh", "-c", &format!("{before}; exec \"$@\""), "sh"].map(String::from);
        Feeds { command: [&shell[..], &self.command].concat(), runs: 0, wrong: 0 }
    }

    fn tell(&mut self, name: &str, fault: Option<String>) {
        self.runs += 1;
        if let Some(fault) = fault {
            self.wrong += 1;
            eprintln!("feeds: {name}: {fault}");
        }
    }

    // All that is due was printed, and `said` was said.
    fn all(&mut self, name: &str, run: Ended, due: &[u8], said: &str) {
        let fault = if run.out != due {
            Some(difference(&run.out, due))
        } else if run.said != said {
            Some(format!("it said {:?}", run.said))
        } else if !run.status.success() {
            Some(format!("it ended with {}", run.status))
        } else {
            None
        };
        self.tell(name, fault);
    }

    // The output could not be written: a beginning of what is due was printed, at least so many bytes but not all, and the program says so and ends.
    fn cut(&mut self, name: &str, run: Ended, due: &[u8], least: usize) {
        let fault = if !due.starts_with(&run.out) || run.out.len() < least || run.out.len() == due.len() {
            Some(difference(&run.out, due))
        } else if run.said != UNWRITTEN {
            Some(format!("it said {:?}", run.said))
        } else if !run.status.success() {
            Some(format!("it ended with {}", run.status))
        } else {
            None
        };
        self.tell(name, fault);
    }

    // The input in pieces of one size after the other: one piece a read, and an empty one as the end of the input.
    fn in_pieces(&mut self, name: &str, input: &[u8], sizes: &[usize]) {
        let (ours, theirs) = UnixDatagram::pair().unwrap();
        let program = self.start(OwnedFd::from(theirs), Stdio::piped());
        let whole = input.to_vec();
        let sizes = sizes.to_vec();
        let feeder = thread::spawn(move || {
            let mut rest = &whole[..];
            for size in sizes.iter().cycle() {
                let (piece, later) = rest.split_at(rest.len().min(*size));
                if ours.send(piece).is_err() || piece.is_empty() {
                    return;
                }
                rest = later;
            }
        });
        let run = program.end();
        feeder.join().unwrap();
        self.all(name, run, &frames_of(input, true), "");
    }

    // The input through a pipe, with a pause after each part.
    fn slowly(&mut self, name: &str, parts: &[&str]) {
        let mut program = self.start(Stdio::piped(), Stdio::piped());
        let mut pipe = program.child.stdin.take().unwrap();
        let whole = parts.concat().into_bytes();
        let parts: Vec<Vec<u8>> = parts.iter().map(|part| part.as_bytes().to_vec()).collect();
        thread::spawn(move || {
            for part in parts {
                let _ = pipe.write_all(&part);
                thread::sleep(Duration::from_millis(20));
            }
        });
        let run = program.end();
        self.all(&format!("a slow pipe, {name}"), run, &frames_of(&whole, true), "");
    }

    // The input through a socket; then a read that fails, since the other side is closed with a byte in it that nobody read.
    fn broken(&mut self, name: &str, input: &[u8]) {
        let (mut ours, mut theirs) = UnixStream::pair().unwrap();
        theirs.write_all(b"x").unwrap();
        let program = self.start(OwnedFd::from(theirs), Stdio::piped());
        let whole = input.to_vec();
        let feeder = thread::spawn(move || ours.write_all(&whole));
        let run = program.end();
        let _ = feeder.join().unwrap();
        self.all(&format!("a read that fails after {name}"), run, &frames_of(input, false), UNREAD);
    }

    // The reader takes little at a time; and the program is stopped and continued, by which a write that waits takes only a part.
    fn slow_reader(&mut self, path: &str, due: &[u8]) {
        let mut program = self.start(File::open(path).unwrap(), Stdio::piped());
        let mut from = program.child.stdout.take().unwrap();
        let reader = thread::spawn(move || {
            let mut all = Vec::new();
            let mut part = [0; 3_001];
            loop {
                let count = from.read(&mut part).unwrap();
                if count == 0 {
                    return all;
                }
                all.extend_from_slice(&part[..count]);
                if all.len() < 600_000 {
                    thread::sleep(Duration::from_millis(2));
                }
            }
        });
        let id = program.child.id().to_string();
        for signal in ["-STOP", "-CONT"].iter().cycle().take(40) {
            Command::new("sh").args(["-c", &format!("kill {signal} {id}")]).stderr(Stdio::null()).status().unwrap();
            thread::sleep(Duration::from_millis(3));
        }
        let mut run = program.end();
        run.out = reader.join().unwrap();
        self.all("a slow reader, and writes that take a part", run, due, "");
    }

    // The reader goes away after some bytes. A program over the standard library's streams ignores the signal that tells of it, whether or not
    // the caller ignores it too: the write fails, and the program ends by itself.
    fn closed(&mut self, path: &str, due: &[u8], count: usize, ignored: bool) {
        let name = format!("a pipe closed after {count} bytes, the signal ignored: {ignored}");
        let program = if ignored { self.after("trap '' PIPE") } else { self.after(":") };
        let mut program = program.start(File::open(path).unwrap(), Stdio::piped());
        let mut from = program.child.stdout.take().unwrap();
        let reader = thread::spawn(move || {
            let mut out = vec![0; count];
            from.read_exact(&mut out).map(|()| out)
        });
        let mut run = program.end();
        let read = reader.join().unwrap();
        let Ok(out) = read else {
            return self.tell(&name, Some("less was printed".to_string()));
        };
        run.out = out;
        self.cut(&name, run, due, count);
    }

    // A write that fails once and would not later: the output takes no more until its reader goes on, which is once the program has ended, or
    // goes on itself; then comes the rest of the input. Nothing comes after the gap.
    fn full_once(&mut self, input: &[u8]) {
        let (ours, theirs) = UnixStream::pair().unwrap();
        theirs.set_nonblocking(true).unwrap();
        let mut program = self.start(Stdio::piped(), OwnedFd::from(theirs));
        let mut pipe = program.child.stdin.take().unwrap();
        let whole = input.to_vec();
        let (go_on, told) = channel();
        thread::spawn(move || {
            let (first, second) = whole.split_at(whole.len() / 2);
            let _ = pipe.write_all(first);
            let _ = told.recv();
            let _ = pipe.write_all(second);
        });
        program.wait(3);
        let reader = collected(ours);
        thread::sleep(Duration::from_millis(100));
        let _ = go_on.send(());
        let mut run = program.end();
        run.out = reader.join().unwrap();
        self.cut("a write that fails once", run, &frames_of(input, true), 1);
    }
}

fn main() {
    let command: Vec<String> = std::env::args().skip(1).collect();
    let [folder, command @ ..] = &command[..] else {
        eprintln!("usage: feeds FOLDER COMMAND..");
        std::process::exit(2);
    };
    let mut feeds = Feeds { command: command.to_vec(), runs: 0, wrong: 0 };

    // Short lines of each sort, and lines as long as they may be: frames for several pages.
    let short = "61203d2031\n61202162\n4\nff\n\n6g\n27412042\nF09F9880\n";
    let long: String = (0..300).map(|number| hex(format!("a = {number} {}", "playlist_entry ".repeat(600)).as_bytes())[..16_384].to_string() + "\n").collect();
    let mixed = format!("{short}{}\n{}61203d20", "0".repeat(40_000), &long[..7 * 16_385]);

    for input in ["", "\n", "\n\n", "6", "61", "61\n", short, &short[..short.len() - 1], "61203d20\n31"] {
        feeds.in_pieces(&format!("{input:?} byte by byte"), input.as_bytes(), &[1]);
    }
    feeds.in_pieces("long lines byte by byte", mixed.as_bytes(), &[1]);
    for size in PIECES {
        feeds.in_pieces(&format!("pieces of {size}"), mixed.as_bytes(), &[size]);
    }
    feeds.in_pieces("pieces of all sizes in turn", format!("{long}{mixed}").as_bytes(), &PIECES);

    feeds.slowly("a line in three parts", &["61203d20", "3", "1\n"]);
    feeds.slowly("a last line in three parts", &["61203d20", "3", "1"]);
    feeds.slowly("lines in parts", &["6", "1203d2031\n", "\n", "4", "\nff"]);
    feeds.slowly("65,537 bytes and the rest", &[&mixed[..65_537], &mixed[65_537..]]);

    let run = feeds.start(File::open("/").unwrap(), Stdio::piped()).end();
    feeds.all("a directory as the input", run, b"", UNREAD);
    for (name, input) in [("nothing", ""), ("half a line", "61203d20"), ("a line", "61203d2031\n"), ("a line and a half", "61203d2031\n61203d20"), ("long lines and a half", &mixed)] {
        feeds.broken(name, input.as_bytes());
    }

    let path = format!("{folder}/long");
    std::fs::write(&path, &long).unwrap();
    let due = frames_of(long.as_bytes(), true);
    feeds.slow_reader(&path, &due);
    for count in [0, 1, 65_536, 1_000_000] {
        feeds.closed(&path, &due, count, false);
        feeds.closed(&path, &due, count, true);
    }
    feeds.full_once(long.as_bytes());
    for input in ["4\n", &long] {
        std::fs::write(format!("{folder}/input"), input).unwrap();
        let full = File::options().write(true).open("/dev/full").unwrap();
        let run = feeds.start(File::open(format!("{folder}/input")).unwrap(), full).end();
        feeds.cut("a full device", run, &frames_of(input.as_bytes(), true), 0);
    }
    // A file that may not grow over a limit: the last write takes a part, and the next one fails.
    for blocks in [1, 77, 1_001] {
        let limited = format!("{folder}/limited");
        let program = feeds.after(&format!("trap '' XFSZ; ulimit -f {blocks}"));
        let mut run = program.start(File::open(&path).unwrap(), File::create(&limited).unwrap()).end();
        run.out = std::fs::read(&limited).unwrap();
        feeds.cut("a limit of the file's size", run, &due, blocks * 512);
    }

    if 0 < feeds.wrong {
        eprintln!("feeds: {} of {} runs went wrong", feeds.wrong, feeds.runs);
        std::process::exit(1);
    }
    println!("feeds: the program, fed and read in {} hard ways, prints the Rust's frames, or a beginning of them and says so", feeds.runs);
}
