//! Programs are built as they stand in the tree, by one builder at a time; and what stands in the way of that is told in one line.
use crate::common::made::script;
use crate::common::{door_under_test, fakes, ground, names_in, real_root, skipped, Call, Made};
use std::fs;
use std::path::Path;
use std::process::Command;

const LISTING: &str = "cycle ack h0 h1 h2 h3\n0 00 00 00 00 00\n";

fn replay(made: &Made) -> Call {
    made.call(&["replay"]).input([0; 5])
}

/// Sets a file's time far back, as an old copy has it.
fn make_old(path: &Path) {
    assert!(Command::new("touch")
        .args(["-d", "2001-01-01"])
        .arg(path)
        .status()
        .expect("touch")
        .success());
}

#[test]
fn what_is_missing_is_built_and_what_is_there_is_not() {
    let made = Made::new("first");
    for built in 1..3 {
        replay(&made).run().is(0).prints(LISTING);
        assert_eq!(
            (made.logged("checked replay"), made.logged("built replay")),
            (built, 1)
        );
    }
    fs::remove_dir_all(made.repo.join("target")).expect("target/");
    replay(&made).run().is(0).prints(LISTING);
    assert_eq!(made.logged("built replay"), 2);
}

/// Only what a command needs is built for it.
#[test]
fn each_command_builds_its_own_programs() {
    for (words, programs) in [
        (&["replay"][..], &["replay"][..]),
        (
            &["readback", "--texts", "-", "-", "-", "-"],
            &["readback", "replay"],
        ),
        (&["write"], &["write_frame"]),
        (&["probe"], &["probe"]),
        (&["build"], &["replay", "probe", "write_frame", "readback"]),
    ] {
        let made = Made::new("own programs");
        let input: &[u8] = match words[0] {
            "write" => b"frame 1 3 1",
            "probe" => b"",
            _ => &[0; 5],
        };
        made.call(words).input(input).run().is(0);
        for program in ["replay", "probe", "write_frame", "readback"] {
            let built = made.logged(&format!("built {program}"));
            assert_eq!(
                built,
                usize::from(programs.contains(&program)),
                "{words:?} and {program}"
            );
        }
    }
}

/// A capture that comes by a pipe is not lent to the build, which would eat it.
#[test]
fn the_build_does_not_eat_the_input() {
    for words in [
        &["replay"][..],
        &["readback", "--texts", "-", "-", "-", "-"],
    ] {
        let made = Made::new("not eaten");
        made.call(words).input([0; 5]).run().is(0);
    }
    let made = Made::new("not eaten");
    made.call(&["write"])
        .input("frame 1 3 1")
        .run()
        .is(0)
        .prints([0; 15]);
}

/// The times of files say nothing: contents decide.
#[test]
fn a_source_with_an_older_time_is_built_again() {
    let made = Made::new("older source").built();
    made.program("replay", &fakes::after_reading("echo 'refused 1'"));
    make_old(&made.repo.join("crates/replay/src/main.rt"));
    replay(&made).run().is(1).prints("refused 1\n");
}

#[test]
fn a_program_that_was_taken_away_is_built_again() {
    let made = Made::new("taken away").built();
    for program in ["replay", "readback", "write_frame", "probe"] {
        fs::remove_file(made.repo.join("target/bin").join(program)).expect("a program");
    }
    replay(&made).run().is(0).prints(LISTING);
    made.call(&["readback", "--texts", "-", "-", "-", "-"])
        .input([0; 5])
        .run()
        .is(0);
    made.call(&["write"]).input("frame 1 3 1").run().is(0);
    made.call(&["probe"]).run().is(0);
}

#[test]
fn a_check_that_fails_runs_nothing() {
    let made = Made::new("failing check").built();
    fs::write(made.repo.join("crates/replay/wrong"), "").expect("a fault");
    for _ in 0..2 {
        let ended = replay(&made).run();
        ended.is(4).says("replay").says("target/log/mirvashek.log");
        let log = fs::read_to_string(made.repo.join("target/log/mirvashek.log")).expect("the log");
        assert!(log.contains("rt: replay NOT PROVED"), "{log}");
        fs::remove_dir_all(made.repo.join("target")).expect("target/");
    }
    let ended = made
        .call(&["readback", "--texts", "-", "-", "-", "-"])
        .input([0; 5])
        .run();
    ended.is(4).says("replay").says_not("of readback");
    fs::remove_file(made.repo.join("crates/replay/wrong")).expect("the fault");
    replay(&made).run().is(0).prints(LISTING);
}

/// A crate that the program is built from, and not the program, is named.
#[test]
fn what_is_not_proved_is_named() {
    let made = Made::new("not proved");
    fs::write(made.repo.join("crates/text/wrong"), "").expect("a fault");
    replay(&made)
        .run()
        .is(4)
        .says("check of text failed")
        .says("target/log/mirvashek.log");
}

#[test]
fn a_check_that_leaves_no_program_is_4() {
    let made = Made::new("no program");
    script(&made.kit.join("bin/rt"), "exit 0\n");
    replay(&made).run().is(4).says("target/bin/replay");
    script(&made.kit.join("bin/rt"), "kill -9 $$\n");
    replay(&made).run().is(4);
}

#[test]
fn a_slow_build_says_how_far_it_is() {
    let made = Made::new("slow");
    fs::write(made.repo.join("slow"), "2").expect("a slow rt");
    replay(&made)
        .run()
        .is(0)
        .prints(LISTING)
        .says("mirvashek: proving 1 of 2: text");
    let made = Made::new("slow, with both");
    fs::write(made.repo.join("slow"), "2").expect("a slow rt");
    let ended = made
        .call(&["readback", "--texts", "-", "-", "-", "-"])
        .input([0; 5])
        .run();
    ended.is(0).says("of 3: text");
}

#[test]
fn two_builders_build_one_after_the_other() {
    let made = Made::new("two builders");
    fs::write(made.repo.join("slow"), "2").expect("a slow rt");
    let three = [
        replay(&made),
        made.call(&["write"]).input("frame 1 3 1"),
        replay(&made),
    ];
    let three: Vec<_> = three
        .into_iter()
        .map(|call| call.among_others().start())
        .collect();
    let ended: Vec<_> = three.into_iter().map(|running| running.end()).collect();
    for one in &ended {
        one.is(0);
    }
    let log = made.log();
    let turns: Vec<&str> = log
        .lines()
        .filter(|l| matches!(*l, "begin" | "end"))
        .collect();
    assert_eq!(turns, ["begin", "end"].repeat(3), "one builds at a time");
    let waited = ended.iter().filter(|e| e.err.contains("waiting")).count();
    assert_eq!(
        names_in(&made.scratch),
        [""; 0],
        "nothing is left in TMPDIR"
    );
    assert_eq!(
        waited,
        2,
        "two have waited and said so: {:?}",
        ended.iter().map(|e| &e.err).collect::<Vec<_>>()
    );
}

/// A door whose program waits for its input does not keep another from building: the two may stand in one pipe.
#[test]
fn two_doors_in_one_pipe_do_not_wait_for_each_other() {
    let made = Made::new("one pipe");
    made.file("x.frames", "frame 1 3 1\n");
    let two = |first: &str| format!("d=$1; shift; {first}");
    let both = if door_under_test().is_some() {
        "\"$d\" \"$1\" - write x.frames | { sleep W; \"$d\" \"$1\" - replay; }"
    } else {
        "\"$d\" write x.frames | { sleep W; \"$d\" replay; }"
    };
    let listing = "cycle ack h0 h1 h2 h3\n0 00 00 00 00 00\n1 00 00 00 00 00\n2 00 00 00 00 00\n";
    for wait in ["0", "0.5"] {
        made.call(&[])
            .shell(&two(&both.replace('W', wait)))
            .run()
            .is(0)
            .prints(listing);
    }
    let late = both
        .replace("W", "0")
        .replacen("\"$d\"", "sleep 0.5; \"$d\"", 1);
    made.call(&[])
        .shell(&two(&late))
        .run()
        .is(0)
        .prints(listing);
}

fn path_of(made: &Made) -> std::ffi::OsString {
    let rest = std::env::var_os("PATH").unwrap_or_default();
    std::env::join_paths(std::iter::once(made.path.clone()).chain(std::env::split_paths(&rest)))
        .expect("a PATH")
}

/// One line, and status 4, from every command that needs a program.
fn all_are_4(made: &Made, words: &str, change: impl Fn(Call) -> Call) {
    for (command, input) in [
        ("replay", &[0; 5][..]),
        ("readback", &[0; 9]),
        ("write", b"frame 1 3 1"),
        ("probe", b""),
        ("build", b""),
    ] {
        let ended = change(made.call(&[command]).input(input)).run();
        ended.is(4).says(words);
        let begins = ended
            .err
            .lines()
            .filter(|l| l.starts_with("mirvashek: "))
            .count();
        ended.hold(begins == 1, "one sentence");
    }
}

#[test]
fn rt_is_missing() {
    let made = Made::new("no rt");
    let path = ground::path_without("rt", &made.folder, &path_of(&made));
    all_are_4(&made, "rt is not on the PATH", |call| {
        call.env("PATH", &path)
    });
    // what needs no program works all the same
    made.call(&["bytes"])
        .input("82 02")
        .env("PATH", &path)
        .run()
        .is(0)
        .silent()
        .prints([0x82, 2]);
}

#[test]
fn the_loader_is_missing() {
    let made = Made::new("no loader");
    fs::create_dir(made.folder.join("empty kit")).expect("a folder");
    all_are_4(&made, "has no loader for this machine", |call| {
        call.env("RATTLE_HOME", made.folder.join("empty kit"))
    });
    fs::remove_file(made.loader()).expect("the loader");
    all_are_4(&made, "has no loader for this machine", |call| call);
}

#[test]
fn rattle_home_names_the_toolchain() {
    let made = Made::new("rattle home");
    let lone = made.folder.join("lone");
    fs::create_dir(&lone).expect("a folder");
    fs::copy(made.kit.join("bin/rt"), lone.join("rt")).expect("a copy of rt");
    let mut path = lone.into_os_string();
    path.push(":");
    path.push(std::env::var_os("PATH").unwrap_or_default());
    replay(&made)
        .env("PATH", &path)
        .env("RATTLE_HOME", &made.kit)
        .run()
        .is(0)
        .prints(LISTING);
}

/// The launcher alone: without cargo a door that is not built cannot be.
#[test]
fn cargo_is_missing() {
    if door_under_test().is_some() {
        return skipped("cargo is missing", "it is the launcher that asks for cargo");
    }
    let made = Made::new("no cargo");
    let path = ground::path_without("cargo", &made.folder, &path_of(&made));
    // a door that is built needs none
    replay(&made).env("PATH", &path).run().is(0).prints(LISTING);
    made.own_door();
    for words in [&["replay"][..], &["version"], &["help"]] {
        made.call(words)
            .env("PATH", &path)
            .run()
            .is(4)
            .says("cargo");
    }
}

/// The door goes by its sources' contents: one that does not build is told, and no older one runs in its place.
#[test]
fn a_door_that_does_not_build_is_4() {
    if door_under_test().is_some() {
        return skipped(
            "a door that does not build",
            "it is the launcher that builds it",
        );
    }
    let made = Made::new("broken door");
    made.own_door();
    fs::write(
        made.repo.join("door/src/main.rs"),
        "fn main() { no_such_call() }\n",
    )
    .expect("a fault");
    made.call(&["version"]).mixed().run().ends(4).prints("");
}

#[test]
fn a_copy_that_cannot_be_written() {
    let made = Made::new("read only");
    if let Some(way) = ground::mounting() {
        let place = made.repo.to_string_lossy().into_owned();
        let lines = "mount --bind \"$0\" \"$0\" && mount -o remount,ro,bind \"$0\" && exec \"$@\"";
        all_are_4(&made, "cannot be written", |call| {
            call.behind(&["sh", "-c", lines, &place]).behind(way)
        });
    } else if ground::is_root() {
        skipped(
            "a copy that cannot be written",
            "root writes all, and nobody may mount",
        );
    } else {
        assert!(Command::new("chmod")
            .args(["-R", "a-w"])
            .arg(&made.repo)
            .status()
            .expect("chmod")
            .success());
        all_are_4(&made, "cannot be written", |call| call);
    }
}

#[test]
fn another_users_copy_cannot_be_written() {
    let made = Made::new("another user");
    if !ground::is_root() || !ground::has("setpriv") {
        return skipped("another user's copy", "only root can be another user");
    }
    if !ground::anybody_reaches(&real_root().join("mirvashek")) {
        return skipped("another user's copy", "others do not reach this repository");
    }
    all_are_4(&made, "cannot be written", |call| {
        call.behind(&ground::as_anybody())
    });
}

#[test]
fn a_disk_that_is_full_while_building() {
    let way = match ground::mounting() {
        Some(way) => way,
        None => {
            return skipped(
                "a full disk while building",
                "this machine lets nobody mount one",
            )
        }
    };
    let made = Made::new("full disk");
    fs::create_dir(made.repo.join("target")).expect("target/");
    made.program(
        "replay",
        &format!("{}\n# {}", fakes::SHOWS, "x".repeat(100_000)),
    );
    let ended = replay(&made)
        .with_disk(way, &made.repo.join("target"), 40)
        .run();
    ended.is(4).says("disk");
}

/// A copy of the launcher that stands alone is no front door.
#[test]
fn a_launcher_without_its_repository() {
    if door_under_test().is_some() {
        return skipped("a launcher without its repository", "it calls the launcher");
    }
    let made = Made::new("alone");
    let lone = made.folder.join("lone");
    fs::create_dir(&lone).expect("a folder");
    fs::copy(made.repo.join("mirvashek"), lone.join("mirvashek")).expect("a copy");
    made.call(&["replay"])
        .by(&lone.join("mirvashek"))
        .run()
        .is(4);
    // without the list of crates nothing can be built
    fs::remove_file(made.repo.join("crates.txt")).expect("crates.txt");
    script(
        &made.kit.join("bin/rt"),
        "echo 'rt: there is no crates.txt' >&2\nexit 2\n",
    );
    replay(&made).run().is(4);
}

/// The launcher finds its repository by links, by the PATH and from any folder.
#[test]
fn the_launcher_is_found_by_links_and_by_the_path() {
    if door_under_test().is_some() {
        return skipped("links to the launcher", "it calls the launcher");
    }
    let made = Made::new("links").built();
    let there = made.folder.join("other folder");
    fs::create_dir(&there).expect("a folder");
    std::os::unix::fs::symlink(made.repo.join("mirvashek"), there.join("a link")).expect("a link");
    std::os::unix::fs::symlink("a link", there.join("mirvashek-here")).expect("a link");
    let path = std::env::join_paths([&there, &made.path].into_iter().cloned().chain(
        std::env::split_paths(&std::env::var_os("PATH").unwrap_or_default()),
    ));
    for launcher in ["./mirvashek-here", "mirvashek-here"] {
        let call = replay(&made)
            .by(Path::new(launcher))
            .from(&there)
            .env("PATH", path.as_ref().expect("a PATH"));
        call.run().is(0).silent().prints(LISTING);
    }
    // with CDPATH a cd to a relative path prints where it went
    let call = replay(&made)
        .by(Path::new("repo/mirvashek"))
        .from(&made.folder.join("made up"));
    call.env("CDPATH", made.folder.join("made up"))
        .run()
        .is(0)
        .silent()
        .prints(LISTING);
    let call = replay(&made).shell("cd \"$(dirname \"$1\")\" && sh mirvashek replay");
    call.run().is(0).silent().prints(LISTING);
}
