//! Hands on what is whole: to standard output, or to a file that is there whole or not at all.

use crate::command::Out;
use crate::leave;
use crate::say::{fail, reason, shown, Fail, BROKEN, MISUSED};
use crate::source;
use crate::sys;
use std::fs::{self, File, OpenOptions};
use std::io::{self, ErrorKind, Seek, Write};
use std::path::{Path, PathBuf};
use std::process;

/// Bytes are not for a terminal; text is.
#[derive(Clone, Copy, PartialEq)]
pub enum Kind {
    Text,
    Bytes { force: bool },
}

pub struct Hand {
    out: Out,
}

fn unusable(path: &Path, why: &str) -> Fail {
    fail(
        MISUSED,
        format!("cannot write '{}': {why}", shown(path.as_os_str())),
    )
}

/// A link stays a link: what it leads to is written.
fn led_to(path: &Path) -> PathBuf {
    fs::canonicalize(path).unwrap_or_else(|_| path.to_path_buf())
}

fn folder_of(path: &Path) -> &Path {
    match path.parent() {
        Some(folder) if !folder.as_os_str().is_empty() => folder,
        _ => Path::new("."),
    }
}

fn check_file(path: &Path) -> Result<(), Fail> {
    match fs::metadata(path) {
        Ok(about) if about.is_dir() => return Err(unusable(path, "it is a folder")),
        Ok(_) => return Ok(()),
        Err(error) if error.kind() != ErrorKind::NotFound => {
            return Err(unusable(path, &reason(&error)))
        }
        Err(_) => {}
    }
    match fs::metadata(folder_of(path)) {
        Ok(about) if about.is_dir() && path.file_name().is_some() => Ok(()),
        Ok(_) => Err(unusable(path, "it is no name of a file in a folder")),
        Err(error) => Err(unusable(path, &reason(&error))),
    }
}

/// What is wrong with where it is to go, before anything is built or run for it.
pub fn ready(out: &Out, closed: &str, kind: Kind) -> Result<Hand, Fail> {
    let shut = match out {
        Out::File(path) => source::is_closed(path.as_os_str(), 1, closed),
        Out::Stream { .. } => closed.contains('1'),
    };
    if shut {
        let words =
            "standard output is closed, so nothing can be handed on; -o FILE names a file instead";
        return Err(fail(BROKEN, words));
    }
    match out {
        Out::File(path) => check_file(path)?,
        Out::Stream { named: false }
            if kind == (Kind::Bytes { force: false }) && sys::is_terminal(1) =>
        {
            let words = "bytes are not for a terminal: send them to a file by -o FILE, or say -o - or --force";
            return Err(fail(MISUSED, words));
        }
        Out::Stream { .. } => {}
    }
    Ok(Hand { out: out.clone() })
}

/// Writes all, and tells how much got out where that fails.
fn write_counted(file: &mut File, bytes: &[u8]) -> Result<(), (usize, io::Error)> {
    let mut done = 0;
    while done < bytes.len() {
        match file.write(&bytes[done..]) {
            Ok(0) => return Err((done, ErrorKind::WriteZero.into())),
            Ok(n) => done += n,
            Err(error) if error.kind() == ErrorKind::Interrupted => {}
            Err(error) => return Err((done, error)),
        }
    }
    Ok(())
}

/// Where a regular file is to be cut back to if it cannot take all. What stood there before stays.
fn end_before(file: &mut File) -> Option<u64> {
    let about = file.metadata().ok().filter(|about| about.is_file())?;
    let at = file.stream_position().ok()?;
    Some(about.len()).filter(|&size| sys::appends(file) || at == size)
}

/// What is said of a write to standard output that failed.
fn lost(error: &io::Error, done: usize, size: usize, cut: bool) -> Fail {
    let got = match (cut, error.kind()) {
        (true, _) => String::from("nothing is handed on"),
        (false, ErrorKind::BrokenPipe) => {
            format!("its reader went away, and has {done} of {size} bytes at most")
        }
        (false, _) => format!("{done} of {size} bytes got out, which is not whole"),
    };
    let words = format!("cannot write to standard output: {}; {got}", reason(error));
    fail(BROKEN, words)
}

/// Writes a part to standard output as it comes.
pub fn pass_on(bytes: &[u8]) -> Result<(), Fail> {
    let written = write_counted(&mut sys::stream(1), bytes);
    written.map_err(|(done, error)| lost(&error, done, bytes.len(), false))
}

fn to_stream(bytes: &[u8]) -> Result<(), Fail> {
    let mut stream = sys::stream(1);
    let before = end_before(&mut stream);
    let written = write_counted(&mut stream, bytes).and_then(|()| match before {
        // some disks tell only now that they are full
        Some(_) => stream.sync_all().map_err(|error| (bytes.len(), error)),
        None => Ok(()),
    });
    written.map_err(|(done, error)| {
        let cut = before.map_or(false, |size| stream.set_len(size).is_ok());
        lost(&error, done, bytes.len(), cut)
    })
}

/// Writes beside the file, to the disk, and takes its name when all is there.
fn replace(path: &Path, bytes: &[u8]) -> io::Result<()> {
    let path = led_to(path);
    let part = folder_of(&path).join(format!(".mirvashek-{}.part", process::id()));
    let make = |part: &Path| OpenOptions::new().write(true).create_new(true).open(part);
    let (part, mut file) = leave::passing(part, make)?;
    if let Ok(about) = fs::metadata(&path) {
        file.set_permissions(about.permissions())?;
    }
    file.write_all(bytes)?;
    file.sync_all()?;
    fs::rename(&part.path, &path)?;
    // the name is safe when the folder is; a folder that cannot be opened for it is no fault of what was written
    File::open(folder_of(&path))
        .and_then(|folder| folder.sync_all())
        .unwrap_or(());
    Ok(())
}

fn to_file(path: &Path, bytes: &[u8]) -> Result<(), Fail> {
    let regular = fs::metadata(path).map_or(true, |about| about.is_file());
    let written = if regular {
        replace(path, bytes)
    } else {
        // a device or a pipe has no other name to be written under
        OpenOptions::new()
            .write(true)
            .open(path)
            .and_then(|mut file| file.write_all(bytes))
    };
    written.map_err(|error| {
        let denied = error.kind() == ErrorKind::PermissionDenied;
        let words = format!(
            "cannot write '{}': {}; ",
            shown(path.as_os_str()),
            reason(&error)
        );
        let left = if regular || denied {
            "it is as it was"
        } else {
            "what it has is not whole"
        };
        fail(if denied { MISUSED } else { BROKEN }, words + left)
    })
}

impl Hand {
    pub fn over(&self, bytes: &[u8]) -> Result<(), Fail> {
        match &self.out {
            Out::Stream { .. } => to_stream(bytes),
            Out::File(path) => to_file(path, bytes),
        }
    }

    pub fn is_stream(&self) -> bool {
        matches!(self.out, Out::Stream { .. })
    }
}

#[cfg(test)]
mod tests {
    use super::*;

    fn folder(name: &str) -> PathBuf {
        let path = std::env::temp_dir().join(format!("door-{}-{name}", process::id()));
        fs::create_dir(&path).unwrap();
        path
    }

    #[test]
    fn a_file_is_there_whole_and_alone() {
        let folder = folder("whole");
        let path = folder.join("out");
        for bytes in [&b"one"[..], b"two and more", b""] {
            let hand = ready(&Out::File(path.clone()), "-", Kind::Text).unwrap();
            hand.over(bytes).unwrap();
            assert_eq!(fs::read(&path).unwrap(), bytes);
            assert_eq!(fs::read_dir(&folder).unwrap().count(), 1);
        }
        fs::remove_dir_all(folder).unwrap();
    }

    #[test]
    fn a_link_stays_a_link() {
        let folder = folder("link");
        std::os::unix::fs::symlink("real", folder.join("out")).unwrap();
        fs::write(folder.join("real"), "old").unwrap();
        to_file(&folder.join("out"), b"new").unwrap();
        assert_eq!(fs::read(folder.join("real")).unwrap(), b"new");
        assert_eq!(fs::read_dir(&folder).unwrap().count(), 2);
        fs::remove_dir_all(folder).unwrap();
    }

    #[test]
    fn where_nothing_can_be_written_is_known_before() {
        let folder = folder("before");
        for bad in [
            folder.clone(),
            folder.join("none/out"),
            folder.join("none/.."),
        ] {
            let told = ready(&Out::File(bad), "-", Kind::Text).err().unwrap();
            assert_eq!(told.status, 2);
        }
        let stream = Out::Stream { named: true };
        assert_eq!(ready(&stream, "01", Kind::Text).err().unwrap().status, 4);
        fs::remove_dir_all(folder).unwrap();
    }

    #[test]
    fn a_full_device_is_told() {
        let full = Path::new("/dev/full");
        if full.exists() {
            assert_eq!(to_file(full, b"x").unwrap_err().status, 4);
        }
    }
}
