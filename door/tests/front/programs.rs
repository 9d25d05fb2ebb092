//! Programs that do what a program never should: stop early, die, hang, say too much. Whatever they have printed, nothing is handed on.
use crate::common::made::script;
use crate::common::{comes_true, fakes, Made};
use std::time::{Duration, Instant};

const RECORD: [u8; 5] = [0; 5];
const LISTED: &str = "printf 'cycle ack h0 h1 h2 h3\\n0 00 00 00 00 00\\n'";
const SAME: &str = "printf '0 same\\n1 same\\n2 same\\n3 same\\n'";

/// What a program does around its answer, and what is said then. ANSWER stands for the lines that are right.
const FAULTS: &[(&str, &str)] = &[
    ("cat >/dev/null; ANSWER; exit 7", "ended with status 7"),
    ("cat >/dev/null; exit 1", "ended with status 1"),
    (
        "cat >/dev/null; ANSWER; kill -9 $$",
        "was ended by signal 9",
    ),
    (
        "cat >/dev/null; ANSWER; kill -11 $$",
        "was ended by signal 11",
    ),
    (
        "cat >/dev/null; printf cycle; kill -15 $$",
        "was ended by signal 15",
    ),
    ("kill -9 $$", "was ended by signal 9"),
    (
        "cat >/dev/null; ANSWER; echo 'cannot write the listing' >&2",
        "cannot write the listing",
    ),
    (
        "cat >/dev/null; echo 'cannot read the input' >&2",
        "cannot read the input",
    ),
    (
        "cat >/dev/null; ANSWER; printf 'engines differ at 7' >&2",
        "said something that it never says",
    ),
    (
        "cat >/dev/null; ANSWER; echo 'engines differ' >&2",
        "said something that it never says",
    ),
    (
        "cat >/dev/null; ANSWER; echo 'all is well' >&2",
        "said something that it never says",
    ),
    (
        "cat >/dev/null; ANSWER; echo >&2",
        "said something that it never says",
    ),
    (
        "cat >/dev/null; ANSWER; printf '\\377\\n' >&2",
        "said something that it never says",
    ),
    (
        "cat >/dev/null; ANSWER; echo 'on its way to head 4' >&2",
        "said something that it never says",
    ),
    (
        "cat >/dev/null; ANSWER; echo 'on its way to head 01' >&2",
        "said something that it never says",
    ),
    (
        "cat >/dev/null; ANSWER; printf 'on its way to head 1\\non its way to head 1\\n' >&2",
        "said something that it never says",
    ),
    (
        "cat >/dev/null; ANSWER; printf 'on its way to head 2\\non its way to head 1\\n' >&2",
        "said something that it never says",
    ),
];

fn calls() -> [(&'static str, &'static str, &'static [&'static str]); 2] {
    [
        ("replay", LISTED, &["replay"]),
        (
            "readback",
            SAME,
            &["readback", "--texts", "-", "-", "-", "-"],
        ),
    ]
}

#[test]
fn a_program_that_fails_hands_nothing_on() {
    let made = Made::new("faults").built();
    for (program, answer, words) in calls() {
        for (lines, said) in FAULTS {
            made.program(program, &lines.replace("ANSWER", answer));
            made.call(words)
                .input(RECORD)
                .run()
                .is(4)
                .says(program)
                .says(said);
        }
        made.program(program, &fakes::after_reading(answer));
    }
}

/// The listing of a capture that was not read to its end could be that of another one, and its refusal too.
#[test]
fn a_program_that_does_not_read_its_whole_input_hands_nothing_on() {
    let made = Made::new("half read").built();
    let cycles: String = (0..40_000)
        .map(|k| format!("{k} 00 00 00 00 00\n"))
        .collect();
    let listing = made.folder.join("listing");
    std::fs::write(&listing, format!("cycle ack h0 h1 h2 h3\n{cycles}")).expect("a listing");
    let listed = format!("cat '{}'", listing.display());
    for (program, answer, words) in calls() {
        let whole = if program == "replay" { &listed } else { answer };
        for lines in [whole, "echo 'refused 4'", "echo 'refused 3 at 0'"] {
            made.program(program, &format!("head -c 5 >/dev/null\n{lines}\n"));
            made.call(words)
                .input(vec![0; 200_000])
                .run()
                .is(4)
                .says(program);
        }
        made.program(program, &fakes::after_reading(answer));
    }
}

/// The same where the input is so small that it is on its way before anybody reads it.
#[test]
fn a_program_that_reads_nothing_of_a_small_input_hands_nothing_on() {
    let made = Made::new("unread").built();
    for (program, answer, words) in calls() {
        made.program(program, &format!("sleep 0.3; {answer}"));
        made.call(words).input(RECORD).run().is(4).says(program);
        made.program(program, &fakes::after_reading(answer));
    }
}

#[test]
fn what_is_on_its_way_is_not_said_beside_a_refusal() {
    let made = Made::new("refused and on its way").built();
    for (program, answer, words) in calls() {
        let lines = "echo 'refused 1'; echo 'on its way to head 1' >&2";
        made.program(program, &fakes::after_reading(lines));
        made.call(words).input(RECORD).run().is(4).says(program);
        made.program(program, &fakes::after_reading(answer));
    }
}

/// Programs that go on for ever, and what is said of them.
const HANGING: &[(&str, &str)] = &[
    ("cat >/dev/null; ANSWER; sleep 12", "did not end"),
    (
        "cat >/dev/null; ANSWER; exec >&- 2>&-; sleep 12",
        "did not end",
    ),
    ("cat >/dev/null; ANSWER; exec >&-; sleep 12", "did not end"),
    ("cat >/dev/null; sleep 12", "did not end"),
    ("sleep 12", "did not end"),
    ("cat >/dev/null; ANSWER; sleep 12 & exit 0", ""),
];

#[test]
fn a_program_that_hangs_is_ended() {
    let made = Made::new("hanging").built();
    for (program, answer, words) in calls() {
        for (lines, said) in HANGING {
            made.program(program, &lines.replace("ANSWER", answer));
            let begin = Instant::now();
            // more than a pipe holds, so that one who does not read is waited for
            let input = vec![0; if *lines == "sleep 12" { 500_000 } else { 5 }];
            let ended = made
                .call(words)
                .env("MIRVASHEK_PATIENCE", "1")
                .input(input)
                .run();
            let took = begin.elapsed();
            ended.hold(
                took < Duration::from_secs(10),
                &format!("an end soon after a second, and here are {took:?}"),
            );
            // a program that has ended and left something behind is whole, or it is not; it is never waited for
            if !said.is_empty() || ended.status != 0 {
                ended.is(4).says(program).says(said);
            }
            let gone = comes_true(Duration::from_secs(5), || made.somebody_is_left().is_none());
            ended.hold(
                gone,
                &format!("nobody is left, and here is {:?}", made.somebody_is_left()),
            );
        }
        made.program(program, &fakes::after_reading(answer));
    }
}

/// A program that prints without an end fills nothing, and is not waited for.
#[test]
fn a_program_that_prints_endlessly_is_ended() {
    let made = Made::new("endless output").built();
    made.file("one.frames", "frame 1 11 1\n");
    let all = [("write_frame", "", &["write", "one.frames"][..])];
    for (program, answer, words) in calls().into_iter().chain(all) {
        for lines in [
            "cat >/dev/null; cat /dev/zero",
            "cat >/dev/null; yes '0 00 00 00 00 00'",
            "cat >/dev/null; ANSWER; yes >&2",
        ] {
            made.program(program, &lines.replace("ANSWER", answer));
            let begin = Instant::now();
            made.call(words)
                .env("MIRVASHEK_PATIENCE", "5")
                .input(RECORD)
                .run()
                .is(4)
                .says(program);
            assert!(
                begin.elapsed() < Duration::from_secs(30),
                "it took {:?}",
                begin.elapsed()
            );
            assert!(comes_true(Duration::from_secs(5), || made
                .somebody_is_left()
                .is_none()));
        }
        made.program(program, &fakes::after_reading(answer));
    }
}

/// A caller who types slowly is waited for, however little patience there is with a program.
#[test]
fn the_callers_input_is_waited_for() {
    let made = Made::new("slow input").built();
    let call = made.call(&["replay"]).env("MIRVASHEK_PATIENCE", "1");
    let call = call.shell("{ printf '\\0\\0\\0'; sleep 3; printf '\\0\\0'; } | \"$@\"");
    call.run()
        .is(0)
        .silent()
        .prints("cycle ack h0 h1 h2 h3\n0 00 00 00 00 00\n");
}

/// A program that is slow and goes on is no program that hangs.
#[test]
fn a_program_that_goes_on_is_waited_for() {
    let lines = "cat >/dev/null; echo 'cycle ack h0 h1 h2 h3'; for k in 0 1 2 3 4 5; do sleep 0.5; echo \"$k 00 00 00 00 00\"; done";
    let made = Made::with("slow program", "replay", lines);
    made.call(&["replay"])
        .env("MIRVASHEK_PATIENCE", "2")
        .input([0; 30])
        .run()
        .is(0);
}

#[test]
fn the_callers_environment_does_not_reach_a_program() {
    let made = Made::new("environment").built();
    let lines =
        format!("cat >/dev/null; [ -z \"${{QEMU_LOG-}}${{LD_PRELOAD-}}\" ] || exit 9\n{LISTED}\n");
    made.program("replay", &lines);
    made.call(&["replay"])
        .env("QEMU_LOG", "all")
        .input(RECORD)
        .run()
        .is(0);
}

#[test]
fn the_emulator_is_used_where_the_toolchain_has_one() {
    let made = Made::new("emulator").built();
    let log = made.log.to_string_lossy().into_owned();
    script(
        &made.tools.join("bin/qemu-x86_64"),
        &format!("echo emulated >>'{log}'\nexec \"$@\"\n"),
    );
    made.call(&["replay"]).input(RECORD).run().is(0).silent();
    assert_eq!(made.logged("emulated"), 1);
    std::fs::remove_file(made.tools.join("bin/qemu-x86_64")).expect("the emulator");
    std::fs::write(made.tools.join("bin/qemu-x86_64"), "no command").expect("no emulator");
    made.call(&["replay"]).input(RECORD).run().is(0).silent();
    assert_eq!(made.logged("emulated"), 1);
}

#[test]
fn probe_hands_its_input_in_and_its_answers_out() {
    let made = Made::with("probe", "probe", "cat\n").built();
    // the letter Z, and no payload
    let request = b"Z\0\0\0\0";
    made.program(
        "probe",
        "head -c 5 >/dev/null; cat >/dev/null; echo unknown",
    );
    made.call(&["probe"])
        .input(request)
        .run()
        .is(0)
        .silent()
        .prints("unknown\n");
    made.call(&["probe", "-o", "answers"])
        .input(request)
        .run()
        .is(0)
        .silent()
        .prints("");
    assert_eq!(made.read("answers"), b"unknown\n");
    for (lines, said) in [
        (
            "cat >/dev/null; echo 'cannot read the requests' >&2",
            "cannot read the requests",
        ),
        ("cat >/dev/null; exit 1", "ended with status 1"),
        ("cat >/dev/null; kill -9 $$", "was ended by signal 9"),
        ("cat >/dev/null", "is not whole"),
    ] {
        made.program("probe", lines);
        made.call(&["probe"]).input(request).run().is(4).says(said);
    }
}

/// What has been answered has been handed on, so it stays; the status says that it is not all.
#[test]
fn answers_that_are_not_whole_are_4() {
    let made = Made::new("probe, not whole").built();
    let requests = b"Z\0\0\0\0Z\0\0\0\x01xZ\0\0\0\0";
    for (lines, printed) in [
        ("printf 'unknown\\nunknown\\n'", "unknown\nunknown\n"),
        ("printf 'unknown\\nunknown\\nunkn'", "unknown\nunknown\n"),
        ("printf 'a\\nb\\nc\\nd\\n'", "a\nb\nc\nd\n"),
        ("printf 'a\\nb\\n'; kill -9 $$", "a\nb\n"),
    ] {
        made.program("probe", &fakes::after_reading(lines));
        made.call(&["probe"])
            .input(requests)
            .run()
            .ends(4)
            .prints(printed)
            .says("probe");
        made.call(&["probe", "-o", "answers"])
            .input(requests)
            .run()
            .is(4);
        assert!(!made.here.join("answers").exists());
    }
}

/// One who waits for each answer gets it.
#[test]
fn answers_go_on_as_they_come() {
    let made = Made::with(
        "answers",
        "probe",
        "head -c 5 >/dev/null; echo first; head -c 5 >/dev/null; echo second",
    )
    .built();
    made.fifo("requests");
    let lines = "\"$@\" <requests | { exec 3>requests; printf 'Z\\0\\0\\0\\0' >&3; read -r a; \
                 printf 'Z\\0\\0\\0\\0' >&3; exec 3>&-; read -r b; echo \"$a $b\"; }";
    made.call(&["probe"])
        .shell(lines)
        .run()
        .ends(0)
        .prints("first second\n");
}

/// It is the caller who is waited for then, and not the program.
#[test]
fn a_slow_reader_of_answers_is_waited_for() {
    let made = Made::with(
        "slow reader",
        "probe",
        "cat >/dev/null; yes unknown | head -n 100000",
    )
    .built();
    let call = made
        .call(&["probe"])
        .input(b"Z\0\0\0\0".repeat(100_000))
        .env("MIRVASHEK_PATIENCE", "1");
    let ended = call.shell("\"$@\" | { sleep 3; wc -l; }").run();
    ended.silent().prints("100000\n");
}
