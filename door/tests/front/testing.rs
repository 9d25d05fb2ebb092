//! The command test, with made-up tests: what is run, in which order, and what becomes of one that fails.
use crate::common::made::script;
use crate::common::{ground, real_root, Made};
use std::fs;
use std::os::unix::fs::symlink;

/// A repository whose cargo and tests only say what they were asked.
fn with_tests(name: &str) -> Made {
    let made = Made::new(name).built();
    let door = made.own_door();
    // the door itself is not built again: its sources are the same
    symlink(real_root().join("door/target"), door.join("target")).expect("a link");
    let log = made.log.to_string_lossy().into_owned();
    script(
        &door.join("faults"),
        &format!("echo faults >>'{log}'\n[ ! -f '{log}.faults' ]\n"),
    );
    let outside = format!(
        "printf '<%s>' outside \"$@\" >>'{log}'; echo >>'{log}'\n[ ! -f '{log}.outside' ]\n"
    );
    script(&made.folder.join("outside"), &outside);
    let outside = made.folder.join("outside");
    let cargo = format!(
        "folder=tests\nfor word; do case $word in *door/Cargo.toml) folder=door ;; esac; target=$word; done\n\
         echo \"cargo $1 $folder\" >>'{log}'\n[ ! -f '{log}.cargo' ] || exit 101\n\
         [ $folder = door ] || {{ mkdir -p \"$target/release\" && cp '{}' \"$target/release/outside\"; }}\n",
        outside.display()
    );
    script(&made.path.join("cargo"), &cargo);
    made
}

/// The steps that are looked for, without what was built before.
fn steps(made: &Made) -> Vec<String> {
    let log = made.log();
    log.lines()
        .filter(|l| l.starts_with("cargo") || l.starts_with('<') || *l == "faults")
        .map(String::from)
        .collect()
}

#[test]
fn all_tests_are_run_in_order() {
    let made = with_tests("all tests");
    let ended = made
        .call(&["test", "--seed", "5", "--calls", "7", "--readbacks", "9"])
        .mixed()
        .run();
    ended.ends(0).says("all tests passed");
    let steps = steps(&made);
    let place = |word: &str| {
        steps
            .iter()
            .position(|s| s.contains(word))
            .unwrap_or_else(|| panic!("no {word} in {steps:#?}"))
    };
    let order = [
        "cargo build tests",
        "cargo test tests",
        "<--self-test>",
        "<--seed><5><--calls><7><--readbacks><9>",
        "cargo test door",
        "faults",
    ];
    let places: Vec<usize> = order.iter().map(|word| place(word)).collect();
    assert!(places.windows(2).all(|two| two[0] < two[1]), "{steps:#?}");
    let run = &steps[place("<--seed>")];
    for (option, program) in [
        ("replay", "replay"),
        ("probe", "probe"),
        ("write", "write_frame"),
        ("readback", "readback"),
    ] {
        let words = format!(
            "<--{option}><{}>",
            made.repo.join("target/bin").join(program).display()
        );
        assert!(run.contains(&words), "{words} in {run}");
    }
    let loader = format!(
        "<--prefix><env><--prefix><-i><--prefix><{}><--prefix><--library-path>",
        made.loader().display()
    );
    assert!(run.contains(&loader), "{loader} in {run}");
}

#[test]
fn a_test_that_fails_is_1() {
    let made = with_tests("failing tests");
    for part in ["outside", "faults", "cargo"] {
        let mark = made.folder.join(format!("log.{part}"));
        fs::write(&mark, "").expect("a mark");
        let ended = made.call(&["test"]).mixed().run();
        ended.says_not("all tests passed").hold(
            matches!(ended.status, 1 | 4),
            "1, or 4 where cargo could not build",
        );
        ended.hold(part == "cargo" || ended.status == 1, "1");
        fs::remove_file(mark).expect("the mark");
    }
}

#[test]
fn tests_without_cargo_are_4() {
    let made = Made::new("tests without cargo").built();
    let rest = std::env::var_os("PATH").unwrap_or_default();
    let path = std::env::join_paths(
        std::iter::once(made.path.clone()).chain(std::env::split_paths(&rest)),
    )
    .expect("a PATH");
    let path = ground::path_without("cargo", &made.folder, &path);
    made.call(&["test"])
        .env("PATH", path)
        .run()
        .is(4)
        .says("cargo");
}
