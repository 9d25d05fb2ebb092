//! HUP, INT and TERM, whatever the door is doing: it ends with 129, 130 or 143, and leaves no process and no file.
use crate::common::made::script;
use crate::common::{comes_true, fakes, names_in, wait_until, Call, Made, Running};
use std::fs;
use std::process::{Command, Stdio};
use std::time::Duration;

const SIGNALS: [(&str, i32); 3] = [("HUP", 129), ("INT", 130), ("TERM", 143)];

/// The call with the signals as a terminal would have them: one that was started in the background may have been told to ignore some.
fn awake(call: Call) -> Call {
    call.behind(&["env", "--default-signal=HUP,INT,TERM"])
}

/// Lines of a script that say that it has come so far, and wait.
fn waits(made: &Made) -> String {
    format!(": >'{}'; sleep 100", made.folder.join("began").display())
}

/// Sends the signal once the work has begun, and looks at what is left.
fn interrupt(made: &Made, running: Running, signal: &str, status: i32) {
    let began = made.folder.join("began");
    wait_until("the work has begun", || began.exists());
    // it has only just begun
    std::thread::sleep(Duration::from_millis(50));
    running.signal(signal);
    let ended = running.end();
    ended.ends(status).prints("");
    let gone = comes_true(Duration::from_secs(5), || made.somebody_is_left().is_none());
    ended.hold(
        gone,
        &format!("nobody is left, and here is {:?}", made.somebody_is_left()),
    );
    let left = names_in(&made.here);
    ended.hold(
        !left.iter().any(|n| n.contains("part")),
        &format!("no file is left, and here is {left:?}"),
    );
    let _ = fs::remove_file(began);
}

#[test]
fn while_the_program_runs() {
    let made = Made::new("program").built();
    let program = fakes::after_reading(&format!("printf half; {}", waits(&made)));
    for (program_name, words) in [
        ("replay", &["replay"][..]),
        ("readback", &["readback", "--texts", "-", "-", "-", "-"]),
        ("write_frame", &["write"]),
    ] {
        made.program(program_name, &program);
        for (signal, status) in SIGNALS {
            made.file("out", "older");
            let call = made.call(words).words(&["-o", "out"]).input("frame 1 3 1");
            interrupt(&made, awake(call).start(), signal, status);
            assert_eq!(made.read("out"), b"older");
        }
        made.program(program_name, fakes::SHOWS);
    }
}

#[test]
fn while_proving() {
    let made = Made::new("proving");
    let rt = format!(
        "[ ! -d target ] || touch target/half\n: >\"$TMPDIR/half\"\n{}\n",
        waits(&made)
    );
    script(&made.kit.join("bin/rt"), &rt);
    for (signal, status) in SIGNALS {
        interrupt(
            &made,
            awake(made.call(&["replay"]).input([0; 5])).start(),
            signal,
            status,
        );
    }
    // nothing stands in the way of the next builder
    script(&made.kit.join("bin/rt"), "exit 1\n");
    made.call(&["replay"])
        .input([0; 5])
        .run()
        .is(4)
        .says_not("waiting");
}

#[test]
fn while_waiting_for_another_builder() {
    let made = Made::new("waiting");
    script(&made.kit.join("bin/rt"), &format!("{}\n", waits(&made)));
    let first = awake(made.call(&["replay"]).input([0; 5])).start();
    wait_until("the first builds", || made.folder.join("began").exists());
    for (signal, status) in SIGNALS {
        let second = awake(made.call(&["replay"]).input([0; 5]).among_others()).start();
        std::thread::sleep(Duration::from_millis(400));
        second.signal(signal);
        second.end().ends(status).prints("");
    }
    interrupt(&made, first, "TERM", 143);
}

/// The caller's input does not end, and nothing of it has come.
#[test]
fn while_reading() {
    let made = Made::new("reading").built();
    for words in [
        &["bytes"][..],
        &["write"],
        &["replay"],
        &["readback"],
        &["readback", "--texts", "-", "/dev/stdin", "-", "-"],
    ] {
        for (signal, status) in SIGNALS {
            let mut holder = Command::new("sleep")
                .arg("100")
                .stdout(Stdio::piped())
                .spawn()
                .expect("sleep");
            let input = holder.stdout.take().expect("a pipe");
            fs::write(made.folder.join("began"), "").expect("a mark");
            let running = awake(made.call(words).words(&["-o", "out"]).input_from(input)).start();
            std::thread::sleep(Duration::from_millis(400));
            interrupt(&made, running, signal, status);
            assert!(!made.here.join("out").exists());
            holder.kill().expect("an end");
            holder.wait().expect("an end");
        }
    }
}

/// Standard output is a pipe that nobody reads, and more is to be written than it holds.
#[test]
fn while_writing() {
    let made = Made::new("writing").built();
    made.file("long.hex", "82 00 00 00 00\n".repeat(50_000));
    made.file("long.frames", "frame 1 4096 1\n".repeat(10));
    made.file("long", vec![0; 60_000]);
    for words in [
        &["bytes", "long.hex"][..],
        &["write", "long.frames"],
        &["replay", "long"],
    ] {
        for (signal, status) in SIGNALS {
            let mut holder = Command::new("sleep")
                .arg("100")
                .stdin(Stdio::piped())
                .spawn()
                .expect("sleep");
            let output = holder.stdin.take().expect("a pipe");
            fs::write(made.folder.join("began"), "").expect("a mark");
            let running = awake(made.call(words).output_to(output)).start();
            std::thread::sleep(Duration::from_millis(900));
            interrupt(&made, running, signal, status);
            holder.kill().expect("an end");
            holder.wait().expect("an end");
        }
    }
}

/// A pipe that nobody reads, under the name of a file.
#[test]
fn while_a_pipe_is_opened() {
    let made = Made::new("opening").built();
    made.fifo("fifo");
    for words in [
        &["bytes", "fifo"][..],
        &["bytes", "-o", "fifo"],
        &["replay", "fifo"],
    ] {
        for (signal, status) in SIGNALS {
            fs::write(made.folder.join("began"), "").expect("a mark");
            let running = awake(made.call(words).input("82")).start();
            std::thread::sleep(Duration::from_millis(400));
            interrupt(&made, running, signal, status);
        }
    }
}
