//! In which programs a mistake shows.

/// The words by which the fake plays a program.
pub const PROGRAMS: [&str; 4] = ["replay", "probe", "write", "readback"];

/// One program, `All` of them, or those that share something. `Runs` is for
/// what is seen at the heads, and `Both` for the rest of an answer.
#[derive(Clone, Copy, Debug, PartialEq, Eq)]
pub enum Shows {
    All,
    Runs,
    Both,
    Captures,
    Orders,
    Texts,
    Replay,
    Probe,
    Write,
    Readback,
}

impl Shows {
    pub fn programs(self) -> &'static [&'static str] {
        match self {
            Shows::All => &PROGRAMS,
            Shows::Runs => &["replay", "probe", "readback"],
            Shows::Both => &["replay", "probe"],
            Shows::Captures => &["replay", "readback"],
            Shows::Orders => &["probe", "write"],
            Shows::Texts => &["probe", "readback"],
            Shows::Replay => &["replay"],
            Shows::Probe => &["probe"],
            Shows::Write => &["write"],
            Shows::Readback => &["readback"],
        }
    }
}
