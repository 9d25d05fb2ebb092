//! The pages of `help`.

const OVERVIEW: &str = "\
mirvashek: what embossing heads show, replayed from a capture by a proved model

  ./mirvashek replay [FILE]      print the listing of a capture, from reset, or
                                 the one line that refuses it
  ./mirvashek readback --texts T0 T1 T2 T3 [CAPTURE]
                                 say of each head whether it shows its text
  ./mirvashek readback [FILE]    the same, with texts and capture in one file
  ./mirvashek write [FILE]       make a capture of frames typed as text
  ./mirvashek bytes [FILE]       turn hex text into bytes
  ./mirvashek probe              answer single calls, for tests
  ./mirvashek build              prove and build all programs
  ./mirvashek test               build what is missing and run the tests
  ./mirvashek help [COMMAND]     show this page, or one about a command
  ./mirvashek version            show the version and what it was built from

No FILE, or -, is standard input. A FILE whose name ends in .hex is hex text.
-o OUT writes to the file OUT what would go to standard output: all of it or
nothing. -- stands before a FILE whose name is an option's.

Exit status:
  0  it may be signed, as far as a machine can tell (write, bytes: all of it was
     handed on; test: all passed)
  1  it may not be signed: refused, a head differs, the capture is empty, or
     bytes are still on their way at its end (write: a frame is refused; test:
     one failed)
  2  typed wrongly, or a file that cannot be used
  3  the two engines differ
  4  not built, not run, or not whole
With 2, 3 and 4 nothing is handed on. Words on standard error say why.

The first call of a command proves and builds its program, which takes some
minutes. MIRVASHEK_PATIENCE is how many seconds a program may stand still before
it is stopped (120 if it is not set).
";

const REPLAY: &str = "\
  ./mirvashek replay [-o OUT] [FILE]

Replays a capture from reset and prints its listing: a heading, and for each
cycle its number, who is acknowledged, and the bytes that heads 0 to 3 show.
Where the capture is refused it prints one line, refused N, or refused 3 at K
where record K is damaged; words on standard error say what the number means.

Status 0: a whole listing of a capture that is not empty, with nothing on its
way at its end. Status 1: refused, empty, or something is still on its way to a
head when the capture ends; it was stopped too early.
";

const READBACK: &str = "\
  ./mirvashek readback [-o OUT] --texts T0 T1 T2 T3 [CAPTURE]
  ./mirvashek readback [-o OUT] [FILE]

Says of each head whether it shows the text that is due there, and nothing else:
  H same    head H shows its text
  H K P     they differ, first at place K, counted from 0; P is the number
            around that place, in hex
or the one line that refuses the input. On standard error it shows both texts of
each head as characters, with the place marked.

T0 is a file with the text due at head 0, and so on; - means that no text is due
there. The end of a file's last line is not part of the text; a T whose name
ends in .hex is hex text. A text has 255 bytes at most. CAPTURE is as FILE for
replay. Without --texts, FILE has the four texts, each behind a byte with its
length, and then the capture.

Status 0: every head shows its text, the capture is not empty, and nothing is on
its way at its end. The texts must come from the leaflet, not from the stations.
";

const WRITE: &str = "\
  ./mirvashek write [-o OUT] [--force] [FILE]

Writes the capture of frames that are typed as text, or refuses the text and
writes nothing. A line is a frame, one of the frame's cells, or a remark:
  frame GAP LENGTH ACKS              as in: frame 1 11 1
  cell INPUT OUTPUT low|high TEXT    as in: cell 1 1 high 2.5
  # a remark
GAP is 1 to 16 quiet cycles, LENGTH the cycles of the frame, at most 4,096. ACKS
is the heads that acknowledge, such as 0,1,3, or all, or none. TEXT is the rest
of the line, 1 to 64 bytes; \\xHH in it is one byte, and \\\\ is a backslash.

The capture is bytes: they go to a terminal only with -o - or --force.
";

const BYTES: &str = "\
  ./mirvashek bytes [-o OUT] [--force] [FILE]

Turns hex text into bytes. The text is pairs of hex digits; blanks and line ends
may stand between pairs, and # begins a remark that goes to the line's end.

The bytes go to a terminal only with -o - or --force.
";

const PROBE: &str = "\
  ./mirvashek probe [-o OUT]

Hands standard input to the program probe, which answers each request by a line.
README.md has the requests. It is there for tests.
";

const BUILD: &str = "\
  ./mirvashek build

Proves and builds the four programs that the other commands run, where that is
not done yet or the sources have changed. It takes some minutes, and some 500 MB
of disk below this copy.
";

const TEST: &str = "\
  ./mirvashek test [--seed N] [--captures N] [--calls N] [--frames N]
                   [--readbacks N]

Builds what is missing and runs the tests: the programs against a model of
their own, and this front door. The numbers say how many cases of each kind are
tried, and where their choice begins. .ci/run runs these and all proofs.
";

const HELP: &str = "\
  ./mirvashek help [COMMAND]

Shows how ./mirvashek is used, or one of its commands.
";

const VERSION: &str = "\
  ./mirvashek version

Shows the version, the revision of this copy and the toolchain's identity.
";

pub fn page(command: Option<&str>) -> &'static str {
    match command {
        Some("replay") => REPLAY,
        Some("readback") => READBACK,
        Some("write") => WRITE,
        Some("bytes") => BYTES,
        Some("probe") => PROBE,
        Some("build") => BUILD,
        Some("test") => TEST,
        Some("help") => HELP,
        Some("version") => VERSION,
        _ => OVERVIEW,
    }
}

#[cfg(test)]
mod tests {
    use super::*;
    use crate::command::COMMANDS;

    #[test]
    fn every_command_has_a_page_of_80_columns() {
        for command in COMMANDS {
            assert!(page(Some(command)).contains(&format!("./mirvashek {command}")));
            assert!(page(None).contains(&format!("./mirvashek {command}")));
        }
        let pages = COMMANDS.iter().map(|command| page(Some(command)));
        for line in pages.chain([page(None)]).flat_map(str::lines) {
            assert!(line.chars().count() <= 80, "{line}");
        }
    }
}
