//! However much comes, neither memory nor disk is filled; and what is large is quick.
use crate::common::{fakes, names_in, Made};
use std::fs;
use std::process::{Command, Stdio};
use std::time::{Duration, Instant};

/// The most memory that a process has had, in kilobytes.
fn peak(process: u32) -> Option<u64> {
    let status = fs::read_to_string(format!("/proc/{process}/status")).ok()?;
    let line = status.lines().find(|l| l.starts_with("VmHWM:"))?;
    line.split_whitespace().nth(1)?.parse().ok()
}

/// Some 50 MB through a pipe with a name. The made-up program counts them; the real one takes no more either.
#[test]
fn an_endless_input_fills_neither_memory_nor_disk() {
    let made = Made::new("endless input").built();
    made.program(
        "replay",
        "n=$(wc -c); [ \"$n\" -gt 10000000 ] && echo 'refused 4'",
    );
    made.program(
        "readback",
        "n=$(wc -c); [ \"$n\" -gt 10000000 ] && echo 'refused 4'",
    );
    for (name, words) in [
        ("fifo", &["replay", "fifo"][..]),
        ("fifo.hex", &["replay", "fifo.hex"]),
        ("fifo", &["readback", "fifo"]),
        ("fifo", &["readback", "--texts", "-", "-", "-", "-", "fifo"]),
    ] {
        let fifo = made.fifo(name);
        let lines = "yes 00000000000000000000000000000000 2>/dev/null | head -c 49500000 >\"$1\"";
        let mut writer = Command::new("sh")
            .args(["-c", lines, "sh"])
            .arg(&fifo)
            .spawn()
            .expect("sh");
        let mut running = made.call(words).start();
        let mut most = 0;
        while !running.has_ended() {
            most = most.max(peak(running.id()).unwrap_or(0));
            let held = names_in(&made.scratch);
            assert!(
                held.iter().all(|n| fs::read_dir(made.scratch.join(n))
                    .map(|d| d.count() == 0)
                    .unwrap_or(false)),
                "{held:?}"
            );
            std::thread::sleep(Duration::from_millis(5));
        }
        running.end().is(1).prints("refused 4\n").says("refused 4");
        println!("{words:?}: {most} kB");
        assert!(most < 40_000, "{words:?}: {most} kB of memory");
        let _ = writer.kill();
        writer.wait().expect("the writer's end");
        fs::remove_file(fifo).expect("the pipe");
    }
}

/// A text that never ends is not read to its end.
#[test]
fn an_endless_text_is_2() {
    let made = Made::new("endless text").built();
    for words in [&["write"][..], &["bytes"]] {
        let mut yes = Command::new("yes")
            .arg("82 0G")
            .stdout(Stdio::piped())
            .spawn()
            .expect("yes");
        let input = yes.stdout.take().expect("a pipe");
        made.call(words)
            .input_from(input)
            .run()
            .is(2)
            .says("line 1");
        let _ = yes.kill();
        yes.wait().expect("an end");
    }
}

#[test]
fn three_megabytes_of_hex_are_quick() {
    let made = Made::new("quick");
    made.file("long.hex", "82 00 00 00 00\n".repeat(200_000));
    let begin = Instant::now();
    made.call(&["bytes", "long.hex"])
        .run()
        .is(0)
        .prints([0x82, 0, 0, 0, 0].repeat(200_000));
    let took = begin.elapsed();
    println!("3 MB of hex text: {took:?}");
    assert!(took < Duration::from_secs(5), "{took:?}");
}

#[test]
fn the_longest_captures_are_quick() {
    let made = Made::with("longest", "replay", fakes::SHOWS).built();
    for records in [12_288, 12_289] {
        let begin = Instant::now();
        let ended = made.call(&["replay"]).input(vec![0; 5 * records]).run();
        ended.is(0).silent().hold(
            ended.out.iter().filter(|&&b| b == b'\n').count() == records + 1,
            "a line each",
        );
        assert!(
            begin.elapsed() < Duration::from_secs(10),
            "{:?}",
            begin.elapsed()
        );
    }
    let text = format!("frame 1 20 1\ncell 0 1 low {}\n", "7".repeat(60)).repeat(20_000);
    let begin = Instant::now();
    made.program(
        "write_frame",
        &fakes::after_reading("head -c 2000000 /dev/zero"),
    );
    made.call(&["write"])
        .input(text)
        .run()
        .is(0)
        .prints(vec![0; 2_000_000]);
    println!("20,000 frames: {:?}", begin.elapsed());
    assert!(
        begin.elapsed() < Duration::from_secs(10),
        "{:?}",
        begin.elapsed()
    );
}
