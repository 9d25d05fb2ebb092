//! What is read: files, standard input, and hex text on the way to bytes.

use crate::command::Place;
use crate::hex::Hex;
use crate::say::{fail, reason, say, shown, Fail, BROKEN, MISUSED};
use crate::sys;
use std::ffi::OsStr;
use std::fs::File;
use std::io::{ErrorKind, Read};
use std::mem::ManuallyDrop;
use std::os::unix::ffi::OsStrExt;
use std::sync::mpsc::{self, Receiver, Sender};

const CHUNK: usize = 65_536;

/// Bytes that come piece by piece.
pub trait Feed: Send {
    /// The next piece, or none at the end. It may wait for the caller's input.
    fn next(&mut self) -> Result<Option<Vec<u8>>, Fail>;
}

enum From {
    File(File),
    Input(ManuallyDrop<File>),
}

/// Something that is open for reading.
pub struct Source {
    pub name: String,
    from: From,
    begun: bool,
}

/// Names by which a standard stream is opened as a file. Where it is closed, something else stands in its place.
pub fn is_closed(name: &OsStr, fd: u8, closed: &str) -> bool {
    let names = match fd {
        0 => ["/dev/stdin", "/dev/fd/0", "/proc/self/fd/0"],
        _ => ["/dev/stdout", "/dev/fd/1", "/proc/self/fd/1"],
    };
    closed.contains((b'0' + fd) as char) && names.iter().any(|other| name == OsStr::new(other))
}

fn closed_input() -> Fail {
    fail(
        MISUSED,
        "standard input is closed, and here it is to be read",
    )
}

/// Opens a file. Whatever goes wrong, nothing else is read in its place.
pub fn open_file(name: &OsStr, closed: &str) -> Result<Source, Fail> {
    if is_closed(name, 0, closed) {
        return Err(closed_input());
    }
    let said = shown(name);
    let unusable = |error| fail(MISUSED, format!("cannot open '{said}': {}", reason(&error)));
    let file = File::open(name).map_err(unusable)?;
    if file.metadata().map_err(unusable)?.is_dir() {
        return Err(fail(MISUSED, format!("'{said}' is a folder, not a file")));
    }
    Ok(Source {
        name: said,
        from: From::File(file),
        begun: false,
    })
}

fn open_input(closed: &str) -> Result<Source, Fail> {
    if closed.contains('0') {
        return Err(closed_input());
    }
    if sys::is_terminal(0) {
        say("standard input is read, and here that is the keyboard (Ctrl-D ends it)");
    }
    Ok(Source {
        name: String::from("standard input"),
        from: From::Input(sys::stream(0)),
        begun: false,
    })
}

pub fn open(place: &Place, closed: &str) -> Result<Source, Fail> {
    match place {
        Place::Input => open_input(closed),
        Place::File(name) => open_file(name, closed),
    }
}

pub fn is_hex(name: &OsStr) -> bool {
    name.as_bytes().ends_with(b".hex")
}

/// The bytes of a file, or those that its hex text stands for.
pub fn feed(place: &Place, closed: &str) -> Result<Box<dyn Feed>, Fail> {
    let source = open(place, closed)?;
    Ok(match place {
        Place::File(name) if is_hex(name) => Box::new(HexFeed::new(source)),
        _ => Box::new(source),
    })
}

impl Feed for Source {
    fn next(&mut self) -> Result<Option<Vec<u8>>, Fail> {
        let mut piece = vec![0; CHUNK];
        loop {
            let got = match &mut self.from {
                From::File(file) => file.read(&mut piece),
                From::Input(file) => file.read(&mut piece),
            };
            match got {
                Ok(0) => return Ok(None),
                Ok(n) => {
                    self.begun = true;
                    piece.truncate(n);
                    return Ok(Some(piece));
                }
                Err(error) if error.kind() == ErrorKind::Interrupted => {}
                Err(error) if self.begun => {
                    let words = format!("cannot read all of {}: {}", self.name, reason(&error));
                    return Err(fail(BROKEN, words));
                }
                Err(error) => {
                    let words = format!("cannot read {}: {}", self.name, reason(&error));
                    return Err(fail(MISUSED, words));
                }
            }
        }
    }
}

/// Hex text, turned into bytes as it comes.
pub struct HexFeed {
    source: Source,
    hex: Hex,
    ended: bool,
}

impl HexFeed {
    pub fn new(source: Source) -> HexFeed {
        HexFeed {
            source,
            hex: Hex::new(),
            ended: false,
        }
    }
}

impl Feed for HexFeed {
    fn next(&mut self) -> Result<Option<Vec<u8>>, Fail> {
        let mut bytes = Vec::new();
        while bytes.is_empty() && !self.ended {
            let taken = match self.source.next()? {
                Some(piece) => self.hex.take(&piece, &mut bytes),
                None => {
                    self.ended = true;
                    self.hex.end(&mut bytes)
                }
            };
            taken.map_err(|fault| fail(MISUSED, format!("{}, {fault}", self.source.name)))?;
        }
        Ok(Some(bytes).filter(|bytes| !bytes.is_empty()))
    }
}

/// Bytes that are there already, and then others.
pub struct Behind {
    pub first: Option<Vec<u8>>,
    pub then: Option<Box<dyn Feed>>,
}

impl Feed for Behind {
    fn next(&mut self) -> Result<Option<Vec<u8>>, Fail> {
        if let Some(first) = self.first.take() {
            return Ok(Some(first));
        }
        match &mut self.then {
            Some(then) => then.next(),
            None => Ok(None),
        }
    }
}

/// Bytes that are handed over later, all at once.
pub struct Later(Receiver<Vec<u8>>);

pub fn later() -> (Later, Sender<Vec<u8>>) {
    let (sender, receiver) = mpsc::channel();
    (Later(receiver), sender)
}

impl Feed for Later {
    fn next(&mut self) -> Result<Option<Vec<u8>>, Fail> {
        Ok(self.0.recv().ok())
    }
}

/// All that comes, where it is no more than `most` bytes. The rest of what is longer is not read.
pub fn all(
    feed: &mut dyn Feed,
    most: usize,
    too_long: impl FnOnce() -> Fail,
) -> Result<Vec<u8>, Fail> {
    let mut bytes = Vec::new();
    while let Some(piece) = feed.next()? {
        bytes.extend(piece);
        if bytes.len() > most {
            return Err(too_long());
        }
    }
    Ok(bytes)
}
