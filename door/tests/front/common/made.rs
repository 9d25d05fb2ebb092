//! A made-up repository and toolchain, with blanks in their paths. The launcher is the real one, and so is the door behind it; the
//! programs are shell scripts, so that they can do what the real ones never do.

use super::{call, fakes, real_root, Call};
use std::ffi::OsStr;
use std::fs;
use std::os::unix::fs::{symlink, PermissionsExt};
use std::path::{Path, PathBuf};
use std::process::Command;
use std::sync::atomic::{AtomicU32, Ordering};
use std::sync::Once;

static MADE: AtomicU32 = AtomicU32::new(0);
static BUILT: Once = Once::new();

/// Everything of one test. It is removed when the test ends.
pub struct Made {
    /// All of it is in here.
    pub folder: PathBuf,
    /// Where the calls are made from: short names stand in here.
    pub here: PathBuf,
    pub repo: PathBuf,
    pub kit: PathBuf,
    /// The toolchain's part for this machine.
    pub tools: PathBuf,
    /// A folder on the PATH, with rt.
    pub path: PathBuf,
    /// TMPDIR of every call. Nothing may be left in it.
    pub scratch: PathBuf,
    /// What rt and the others have done.
    pub log: PathBuf,
}

impl Made {
    /// A repository whose programs all do what they should.
    pub fn new(name: &str) -> Made {
        BUILT.call_once(call::build_the_door);
        let made = Made::folders(name);
        made.repository();
        made.toolchain();
        made.program("replay", fakes::SHOWS);
        made.program("readback", fakes::COMPARES);
        made.program("write_frame", fakes::WRITES);
        made.program("probe", fakes::ANSWERS);
        made
    }

    /// The same with one program of its own.
    pub fn with(name: &str, program: &str, lines: &str) -> Made {
        let made = Made::new(name);
        made.program(program, lines);
        made
    }

    fn folders(name: &str) -> Made {
        let number = MADE.fetch_add(1, Ordering::SeqCst);
        let folder =
            std::env::temp_dir().join(format!("door {}-{number} {name}", std::process::id()));
        fs::create_dir_all(&folder).expect("a temporary folder");
        let folder = fs::canonicalize(folder).expect("a temporary folder");
        let kit = folder.join("made up/kit");
        let made = Made {
            here: folder.join("here"),
            repo: folder.join("made up/repo"),
            tools: kit.join("on").join(machine()).join("toolchain"),
            kit,
            path: folder.join("made up/path"),
            scratch: folder.join("scratch"),
            log: folder.join("log"),
            folder,
        };
        for part in [
            &made.here,
            &made.repo,
            &made.kit.join("bin"),
            &made.path,
            &made.scratch,
        ] {
            fs::create_dir_all(part).expect("a folder");
        }
        for part in ["bin", "lib"] {
            fs::create_dir_all(made.tools.join(part)).expect("a folder");
        }
        fs::write(&made.log, "").expect("a log");
        made
    }

    fn repository(&self) {
        let root = real_root();
        fs::copy(root.join("mirvashek"), self.repo.join("mirvashek"))
            .expect("a copy of the launcher");
        // a link, so that the door is not built again
        symlink(root.join("door"), self.repo.join("door")).expect("a link to door/");
        let crates =
            "# what all use\ntext:\nreplay: text\nprobe: text\nwrite_frame: text\nreadback: text\n";
        fs::write(self.repo.join("crates.txt"), crates).expect("crates.txt");
        self.source("text", "");
    }

    /// Gives the repository a door folder of its own, with the same sources and nothing built.
    pub fn own_door(&self) -> PathBuf {
        let (link, real) = (self.repo.join("door"), real_root().join("door"));
        fs::remove_file(&link).expect("the link to door/");
        fs::create_dir(&link).expect("a folder");
        for part in ["Cargo.toml", "Cargo.lock", "src"] {
            let copied = Command::new("cp")
                .arg("-r")
                .arg(real.join(part))
                .arg(&link)
                .status();
            assert!(copied.expect("cp").success());
        }
        link
    }

    fn toolchain(&self) {
        script(
            &self.kit.join("bin/rt"),
            &RT.replace("LOG", &self.log.to_string_lossy()),
        );
        symlink("../kit/bin/rt", self.path.join("rt")).expect("a link to rt");
        script(&self.loader(), "[ \"$1\" = --library-path ] && [ -d \"$2\" ] && [ $# -eq 3 ] || exit 99\nexec /bin/sh \"$3\"\n");
    }

    pub fn loader(&self) -> PathBuf {
        self.tools.join("lib/ld-linux-x86-64.so.2")
    }

    /// Gives a program other lines. rt builds it at the next call, since its contents are others.
    pub fn program(&self, name: &str, lines: &str) -> &Made {
        self.source(name, lines)
    }

    fn source(&self, name: &str, lines: &str) -> &Made {
        let folder = self.repo.join("crates").join(name).join("src");
        fs::create_dir_all(&folder).expect("a crate");
        fs::write(folder.join("main.rt"), lines).expect("a source");
        self
    }

    /// Builds all programs now, so that nothing is said of building later.
    pub fn built(self) -> Made {
        self.call(&["build"]).run().is(0);
        self
    }

    /// A file in the folder where the calls are made.
    pub fn file(&self, name: impl AsRef<OsStr>, bytes: impl AsRef<[u8]>) -> PathBuf {
        let path = self.here.join(name.as_ref());
        fs::write(&path, bytes).expect("a file");
        path
    }

    pub fn read(&self, name: &str) -> Vec<u8> {
        fs::read(self.here.join(name)).unwrap_or_else(|e| panic!("{name}: {e}"))
    }

    pub fn fifo(&self, name: &str) -> PathBuf {
        let path = self.here.join(name);
        assert!(Command::new("mkfifo")
            .arg(&path)
            .status()
            .expect("mkfifo")
            .success());
        path
    }

    /// A call of the launcher, or of the door under test, with these words.
    pub fn call(&self, words: &[&str]) -> Call {
        Call::new(self, words)
    }

    /// How often the log has a line.
    pub fn logged(&self, line: &str) -> usize {
        let log = fs::read_to_string(&self.log).expect("the log");
        log.lines().filter(|l| *l == line).count()
    }

    pub fn log(&self) -> String {
        fs::read_to_string(&self.log).expect("the log")
    }

    /// Whether some process still works in this test's folders.
    pub fn somebody_is_left(&self) -> Option<String> {
        let processes = fs::read_dir("/proc").expect("/proc").flatten();
        processes
            .filter(|p| {
                p.file_name()
                    .to_string_lossy()
                    .bytes()
                    .all(|b| b.is_ascii_digit())
            })
            .find_map(|p| self.is_ours(&p.path()))
    }

    fn is_ours(&self, process: &Path) -> Option<String> {
        let words = fs::read(process.join("cmdline")).ok()?;
        let words = String::from_utf8_lossy(&words).replace('\0', " ");
        let stands_here = fs::read_link(process.join("cwd"))
            .map(|at| at.starts_with(&self.folder))
            .unwrap_or(false);
        // a process that has ended has no words, and is only waited for
        let alive = !words.is_empty();
        let is_ours = alive && (stands_here || words.contains(&*self.folder.to_string_lossy()));
        if is_ours {
            Some(words)
        } else {
            None
        }
    }
}

impl Drop for Made {
    fn drop(&mut self) {
        // a test may have taken rights away
        let _ = Command::new("chmod")
            .args(["-R", "u+rwX"])
            .arg(&self.folder)
            .stderr(std::process::Stdio::null())
            .status();
        let _ = fs::remove_dir_all(&self.folder);
    }
}

pub fn machine() -> String {
    let output = Command::new("uname").arg("-m").output().expect("uname");
    String::from_utf8_lossy(&output.stdout).trim().to_string()
}

/// A file that is a command.
pub fn script(path: &Path, lines: &str) {
    fs::write(path, format!("#!/bin/sh\n{lines}")).expect("a script");
    fs::set_permissions(path, fs::Permissions::from_mode(0o755)).expect("a script's rights");
}

/// To build a program is to copy it. As the real rt does, it goes by contents: its stamp is what it has built last, and it does not
/// look whether the program is still there. It reads its standard input to the end, so that a capture would be missed if it were lent
/// to the build.
const RT: &str = r#"
cat >/dev/null
[ "$1" = check ] || exit 2
shift
echo begin >>'LOG'
[ ! -f slow ] || sleep "$(cat slow)"
for name in text "$@"; do
    echo "checked $name" >>'LOG'
    if [ -f "crates/$name/wrong" ]; then
        rm -f "target/stamp/$name"
        echo "rt: $name NOT PROVED"
        echo "rt: FAILED: $name"
        echo end >>'LOG'
        exit 1
    fi
    if cmp -s "crates/$name/src/main.rt" "target/stamp/$name"; then
        echo "rt: $name proved (unchanged since it was last proved)"
        continue
    fi
    echo "built $name" >>'LOG'
    mkdir -p target/bin target/stamp || exit 2
    cp "crates/$name/src/main.rt" "target/bin/$name" || exit 2
    cp "crates/$name/src/main.rt" "target/stamp/$name" || exit 2
    echo "rt: $name proved (1 s)"
done
echo end >>'LOG'
echo "rt: ok, $# crates proved"
"#;
