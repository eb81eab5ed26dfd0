//! The tree from Rust: it takes texts, and returns what the program `hurd` prints of them. This is one file without a crate; to use it in a program, copy all above `main`.
//!
//! examples/c/hurd.h says what the library's functions do, and what a program must do. The types here see to that, except for one rule: call no function from a signal
//! handler, nor in a forked child of a program with threads.

use std::error;
use std::fmt;
use std::io::{self, Write};
use std::ptr;

/// `hurd_world` of hurd.h: null if there is no world.
#[repr(C)]
struct Held {
    at: *mut u8,
}

/// `hurd_said` of hurd.h: how a call of the library ended.
#[repr(C)]
struct Said {
    status: u32,
    error: u32,
    line: u64,
    length: usize,
}

/// The numbers of a call: `hurd_request` of hurd.h, which says what each means. Those that a call has no use for are 0.
#[repr(C)]
#[derive(Clone, Copy, Debug, Default)]
pub struct Request {
    pub task: u32,
    pub call: u32,
    pub port: u64,
    pub other: u64,
    pub amount: u64,
    pub offset: i64,
    pub flags: u32,
    pub mode: u32,
    pub owner: u32,
    pub group: u32,
    pub to: u32,
    pub active: u32,
    pub goaway: u32,
    pub brings: u32,
}

/// The numbers of a reply: `hurd_figures` of hurd.h, which says what each means.
#[repr(C)]
#[derive(Clone, Copy, Debug, Default, PartialEq, Eq)]
pub struct Figures {
    pub which: u32,
    pub error: u32,
    pub retry: u32,
    pub kind: u32,
    pub mode: u32,
    pub owner: u32,
    pub group: u32,
    pub links: u32,
    pub translators: u32,
    pub number: u64,
    pub size: u64,
}

/// `hurd_reply` of hurd.h.
#[repr(C)]
struct Answer {
    status: u32,
    reply: Figures,
    length: usize,
    told: usize,
}

/// The reply to a call: its numbers, how many bytes it has, and as many of these as were wanted; and what those who are watched learn from the call.
#[derive(Clone, Debug, PartialEq, Eq)]
pub struct Reply {
    pub figures: Figures,
    pub length: usize,
    pub bytes: Vec<u8>,
    pub told: Vec<u8>,
}

/// A function that takes a world and a text, and copies what the text prints.
type Tell = unsafe extern "C" fn(*mut Held, *const u8, usize, *mut u8, usize) -> Said;

/// A function that takes a whole text and names of users or tasks, and copies what is printed of it.
type Print = unsafe extern "C" fn(u32, *const u8, usize, *const u8, usize, *mut u8, usize) -> Said;

extern "C" {
    fn hurd_begin(world: *mut Held, list: *const u8, size: usize, out: *mut u8, room: usize) -> Said;
    fn hurd_make(world: *mut Held, calls: *const u8, size: usize, out: *mut u8, room: usize) -> Said;
    fn hurd_told(world: *mut Held, from: usize, out: *mut u8, room: usize) -> usize;
    fn hurd_watch(world: *mut Held, who: *const u8, size: usize) -> Said;
    fn hurd_open(world: *mut Held, request: *const Request, path: *const u8, size: usize) -> Answer;
    fn hurd_call(world: *mut Held, request: *const Request, bytes: *const u8, size: usize, out: *mut u8, room: usize) -> Answer;
    fn hurd_line(request: *const Request, bytes: *const u8, size: usize, out: *mut u8, room: usize) -> Said;
    fn hurd_end(world: *mut Held);
    fn hurd_run(kind: u32, text: *const u8, size: usize, out: *mut u8, room: usize) -> Said;
    fn hurd_learn(kind: u32, text: *const u8, size: usize, who: *const u8, who_size: usize, out: *mut u8, room: usize) -> Said;
    fn hurd_see(kind: u32, text: *const u8, size: usize, who: *const u8, who_size: usize, out: *mut u8, room: usize) -> Said;
    fn hurd_can(kind: u32, text: *const u8, size: usize, who: *const u8, who_size: usize, every: u32, out: *mut u8, room: usize) -> Said;
    fn hurd_draw(kind: u32, text: *const u8, size: usize, who: *const u8, who_size: usize, out: *mut u8, room: usize) -> Said;
}

/// What there is room for at first, of a world and of a text. A longer one costs a second call.
const WORLD_ROOM: usize = 4096;
const TEXT_ROOM: usize = 65536;

/// What a text is: a script of users' commands, or a list of tasks' calls.
#[derive(Clone, Copy, Debug, PartialEq, Eq)]
pub enum Kind {
    Script = 0,
    Calls = 1,
}

/// What the library refused.
#[derive(Clone, Debug, PartialEq, Eq)]
pub enum Error {
    /// The text is bad at this line, and nothing of it was done. Line 0: it is too long, or has a task line for a world that exists.
    /// The reason is empty if the library gives none, as for a world's texts.
    BadText { line: u64, reason: Vec<u8> },
    /// The world could not be created: the refusal of this number.
    Refused { error: u32 },
    /// Memory ran out; `told` was printed before that. In a world the first calls were made, and perhaps the next was. It can still be used.
    NoMemory { told: Vec<u8> },
    /// Somebody who is named isn't there. The reason is empty if the library gives none.
    Unknown { reason: Vec<u8> },
    /// The numbers and bytes make no call, or the line of a call would be longer than a list may be. If a path was opened, `told` has the calls that were made.
    NoCall { told: Vec<u8> },
    /// A status that no function here can end with, or that is new.
    Other { status: u32 },
}

impl fmt::Display for Error {
    fn fmt(&self, f: &mut fmt::Formatter<'_>) -> fmt::Result {
        match self {
            Error::BadText { line: 0, reason } if reason.is_empty() => write!(f, "the text is too long, or has a task line where none is allowed"),
            Error::BadText { line, reason } if reason.is_empty() => write!(f, "line {line} is bad"),
            Error::Unknown { reason } if reason.is_empty() => write!(f, "somebody who is named isn't there"),
            Error::BadText { reason, .. } | Error::Unknown { reason } => write!(f, "{}", String::from_utf8_lossy(reason)),
            Error::Refused { error } => write!(f, "the world could not be created: error {error}"),
            Error::NoMemory { .. } => write!(f, "out of memory"),
            Error::NoCall { .. } => write!(f, "these numbers and bytes make no call, or have no line"),
            Error::Other { status } => write!(f, "the library ended with status {status}"),
        }
    }
}

impl error::Error for Error {}

/// The reason in a complaint, which the library gives from the colon after the name of a file on.
fn reason(told: &[u8]) -> Vec<u8> {
    let told = told.strip_prefix(b":").unwrap_or(told);
    let told = told.strip_prefix(b" ").unwrap_or(told);
    told.strip_suffix(b"\n").unwrap_or(told).to_vec()
}

/// What was printed, or the error of the status.
fn ended(said: &Said, told: Vec<u8>) -> Result<Vec<u8>, Error> {
    match said.status {
        0 => Ok(told),
        1 => Err(Error::BadText { line: said.line, reason: reason(&told) }),
        2 => Err(Error::Refused { error: said.error }),
        3 => Err(Error::NoMemory { told }),
        5 => Err(Error::Unknown { reason: reason(&told) }),
        7 => Err(Error::NoCall { told }),
        status => Err(Error::Other { status }),
    }
}

/// A world of tasks over an empty tree in memory. It stays on its thread: it is neither `Send` nor `Sync`.
pub struct World {
    held: Held,
}

impl World {
    /// Creates the world of a list's tasks, and makes the list's calls. Returns the world, and what the calls print.
    pub fn begin(list: &[u8]) -> Result<(World, Vec<u8>), Error> {
        let mut world = World { held: Held { at: ptr::null_mut() } };
        let told = world.tell(hurd_begin, list)?;
        Ok((world, told))
    }

    /// Makes the calls of a text, one on each line, and returns what they print: the line of each, and its reply after two spaces.
    pub fn make(&mut self, calls: &[u8]) -> Result<Vec<u8>, Error> {
        self.tell(hurd_make, calls)
    }

    /// After this `make` also returns, after each call by others, what these tasks learn from it. `who` has numbers with commas between them; if it is empty, this ends.
    pub fn learn(&mut self, who: &[u8]) -> Result<(), Error> {
        // SAFETY: the world is one that these functions alone write, and the bytes are those of a slice.
        let said = unsafe { hurd_watch(&mut self.held, who.as_ptr(), who.len()) };
        ended(&said, Vec::new()).map(drop)
    }

    /// Makes one call as numbers and bytes, and returns its reply with at most `room` of its bytes.
    pub fn call(&mut self, request: &Request, bytes: &[u8], room: usize) -> Result<Reply, Error> {
        let mut out = vec![0; room];
        // SAFETY: as above; the request is one that the library only reads.
        let answer = unsafe { hurd_call(&mut self.held, request, bytes.as_ptr(), bytes.len(), out.as_mut_ptr(), out.len()) };
        ended(&Said { status: answer.status, error: 0, line: 0, length: 0 }, Vec::new())?;
        out.truncate(answer.length);
        let told = self.told(answer.told);
        Ok(Reply { figures: answer.reply, length: answer.length, bytes: out, told })
    }

    /// Opens what a path leads to, as the commands of a script do: it follows retries, and starts translators that wait, by the servers that their words make. Of the request it takes the
    /// task, the port of the directory where the path starts, the flags and the mode. Returns a port or a refusal; `told` has all calls that were made, as `make` prints them.
    pub fn open(&mut self, request: &Request, path: &[u8]) -> Result<Reply, Error> {
        // SAFETY: as above.
        let answer = unsafe { hurd_open(&mut self.held, request, path.as_ptr(), path.len()) };
        let told = self.told(answer.told);
        let told = ended(&Said { status: answer.status, error: 0, line: 0, length: 0 }, told)?;
        Ok(Reply { figures: answer.reply, length: 0, bytes: Vec::new(), told })
    }

    /// So many bytes of what was printed last.
    fn told(&mut self, length: usize) -> Vec<u8> {
        let mut told = vec![0; length];
        // SAFETY: as above; the room is that of a vector of its own.
        unsafe { hurd_told(&mut self.held, 0, told.as_mut_ptr(), told.len()) };
        told
    }

    /// Gives a text to the library, and returns all that it prints. If there was too little room, it asks for the rest.
    fn tell(&mut self, function: Tell, text: &[u8]) -> Result<Vec<u8>, Error> {
        let mut told = vec![0; WORLD_ROOM];
        // SAFETY: as above; the room is that of a vector of its own.
        let said = unsafe { function(&mut self.held, text.as_ptr(), text.len(), told.as_mut_ptr(), told.len()) };
        told.resize(said.length, 0);
        if let Some(rest) = told.get_mut(WORLD_ROOM..) {
            // SAFETY: the same.
            unsafe { hurd_told(&mut self.held, WORLD_ROOM, rest.as_mut_ptr(), rest.len()) };
        }
        ended(&said, told)
    }
}

impl Drop for World {
    fn drop(&mut self) {
        // SAFETY: as above.
        unsafe { hurd_end(&mut self.held) }
    }
}

/// What is printed of a text. If there was too little room, it asks again with more.
fn printed(ask: impl Fn(&mut [u8]) -> Said) -> Result<Vec<u8>, Error> {
    let mut told = vec![0; TEXT_ROOM];
    loop {
        let room = told.len();
        let said = ask(&mut told);
        told.resize(said.length, 0);
        if said.length <= room {
            return ended(&said, told);
        }
    }
}

/// The line of a list that makes the same call as `World::call` with these numbers and bytes.
pub fn line(request: &Request, bytes: &[u8]) -> Result<Vec<u8>, Error> {
    // SAFETY: all bytes are those of slices, and the room is one that nothing else has.
    printed(|out| unsafe { hurd_line(request, bytes.as_ptr(), bytes.len(), out.as_mut_ptr(), out.len()) })
}

/// The same, for a function that takes names.
fn printed_for(function: Print, kind: Kind, text: &[u8], who: &[u8]) -> Result<Vec<u8>, Error> {
    // SAFETY: all bytes are those of slices, and the room is one that nothing else has.
    printed(|out| unsafe { function(kind as u32, text.as_ptr(), text.len(), who.as_ptr(), who.len(), out.as_mut_ptr(), out.len()) })
}

/// The transcript of a text, run in a world of its own, as `hurd run` prints it.
pub fn run(kind: Kind, text: &[u8]) -> Result<Vec<u8>, Error> {
    // SAFETY: the same.
    printed(|out| unsafe { hurd_run(kind as u32, text.as_ptr(), text.len(), out.as_mut_ptr(), out.len()) })
}

/// The transcript of a text and, after each command or call by others, what `who` learn from it, as `hurd learn` prints it. `who` has names of users, or numbers of tasks.
pub fn learn(kind: Kind, text: &[u8], who: &[u8]) -> Result<Vec<u8>, Error> {
    printed_for(hurd_learn, kind, text, who)
}

/// Everything that `who` can see at the end of a text, as `hurd see` prints it.
pub fn see(kind: Kind, text: &[u8], who: &[u8]) -> Result<Vec<u8>, Error> {
    printed_for(hurd_see, kind, text, who)
}

/// What `who` could be shown at the end of a text, and by whose help, as `hurd can` prints it. It lists bytes, entries and nodes; with `every` it lists every part.
pub fn can(kind: Kind, text: &[u8], who: &[u8], every: bool) -> Result<Vec<u8>, Error> {
    // SAFETY: the same.
    printed(|out| unsafe { hurd_can(kind as u32, text.as_ptr(), text.len(), who.as_ptr(), who.len(), u32::from(every), out.as_mut_ptr(), out.len()) })
}

/// A picture of the end of a text in the language of Graphviz, as `hurd draw` prints it. It marks what `who` can see; `who` may be empty.
pub fn draw(kind: Kind, text: &[u8], who: &[u8]) -> Result<Vec<u8>, Error> {
    printed_for(hurd_draw, kind, text, who)
}

/// A first program: root writes a notice, alice reads it and may not write it, and learns of a directory. hurd.txt has what it prints.
fn main() -> Result<(), Box<dyn error::Error>> {
    let mut out = io::stdout().lock();
    let (mut world, told) = World::begin(b"task 0 0\ntask 1000 1000\n0 dir_lookup 1 =motd WRITE,CREATE 644")?;
    out.write_all(&told)?;
    out.write_all(&world.make(b"0 io_write 3 =Welcome\\n -1\n1 dir_lookup 1 =motd READ 0\n1 io_read 3 100 0")?)?;
    out.write_all(&world.make(b"1 dir_lookup 1 =motd WRITE 0")?)?;
    world.learn(b"1")?;
    out.write_all(&world.make(b"0 dir_mkdir 1 =d 700")?)?;

    // one call as numbers and bytes: alice reads the notice by io_read, the fifth call
    let read = Request { task: 1, call: 5, port: 3, amount: 100, ..Request::default() };
    let reply = world.call(&read, b"", 100)?;
    writeln!(out, "{} is answered by {} bytes: {:?}", String::from_utf8_lossy(&line(&read, b"")?), reply.figures.number, String::from_utf8_lossy(&reply.bytes))?;

    // a path as numbers: root leaves a translator that waits, and alice opens it, by three calls
    out.write_all(&world.make(b"0 dir_lookup 1 =hello NOTRANS,CREATE 644\n0 file_set_translator 4 SET - - =/hurd/hello")?)?;
    let opened = world.open(&Request { task: 1, port: 2, flags: 1, ..Request::default() }, b"hello")?;
    out.write_all(&opened.told)?;
    writeln!(out, "alice opened it at port {}", opened.figures.number)?;

    let script = b"user alice - -\nroot put /f x\n";
    out.write_all(&run(Kind::Script, script)?)?;
    out.write_all(&learn(Kind::Script, script, b"alice")?)?;
    out.write_all(&see(Kind::Calls, b"task - -", b"0")?)?;
    out.write_all(&can(Kind::Script, b"user alice - -\nroot put /f x\nroot chmod 600 /f\n", b"alice", false)?)?;
    writeln!(out, "a picture: {} bytes", draw(Kind::Script, b"", b"")?.len())?;

    let refused = [world.make(b"nonsense"), world.make(b"task 0 0"), run(Kind::Script, b"root frob /"), learn(Kind::Script, script, b"bob")];
    for error in refused.into_iter().filter_map(Result::err) {
        writeln!(out, "refused: {error}")?;
    }
    Ok(())
}
