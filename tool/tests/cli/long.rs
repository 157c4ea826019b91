//! A long pass, a long line and a long capture are read with constant memory.
#![cfg(target_os = "linux")]

use std::fs::{self, File};
use std::io::{BufWriter, Read, Write};
use std::process::{Child, Stdio};

use super::line::summary;
use super::runs::Folder;

/// Bytes of the long file, at least.
const LONG: usize = 100_000_000;
/// Memory that the program may take at most, in kB.
const MOST: u64 = 20_000;

/// A pass of 40 blocks of 2,400 bits. Each block takes a message of eight packets at circuit 01 and one of a packet at 02:07, so that the index
/// of both goes on where the pass is repeated.
fn plan() -> String {
    let mut plan = "circuits 01 02:07\n".to_string();
    for block in 0..40 {
        plan += &format!("offer 0 1 0 \"telemetry {block:04} {}\"\n", "x".repeat(100));
        plan += &format!("offer 1 1 0 \"switch {block:04}\"\nblock 2400 2400\n");
    }
    plan
}

/// Files the pass as often as it takes for that many bytes, as `long`; answers how often.
fn repeat(folder: &Folder, bytes: usize) -> usize {
    repeat_in(folder, bytes, &[])
}

/// The same in the format that options choose.
fn repeat_in(folder: &Folder, bytes: usize, options: &[&str]) -> usize {
    folder.write("plan", plan());
    let encode = [&["encode", "plan", "-o", "pass"], options].concat();
    assert_eq!(folder.run(&encode).status, 0);
    let pass = folder.read("pass");
    let times = bytes.div_ceil(pass.len());
    let mut long = BufWriter::new(File::create(folder.path("long")).unwrap());
    for _ in 0..times {
        long.write_all(&pass).unwrap();
    }
    long.into_inner().unwrap();
    times
}

/// Runs the program with little memory; answers the last part of its standard output, and the standard error.
pub fn run(folder: &Folder, arguments: &[&str]) -> (Vec<u8>, String) {
    let mut command = folder.command(arguments);
    command.stdout(Stdio::piped()).stderr(Stdio::piped());
    let mut child = command.spawn().unwrap();
    let (end, memory) = follow(&mut child);
    let output = child.wait_with_output().unwrap();
    assert!(output.status.success());
    assert!((1..MOST).contains(&memory), "{memory} kB");
    (end, String::from_utf8(output.stderr).unwrap())
}

/// The totals of the repeated pass, up to the figures behind the table.
fn totals(times: usize, read: &str) -> String {
    let messages = 40 * times;
    let mut table = String::new();
    for (name, first, second) in [
        ("packets", 8 * messages, messages),
        ("copies", 0, 0),
        ("lost", 0, 0),
        ("modulo 8", 0, 0),
        ("begun", messages, 0),
        ("held", 6 * messages, 0),
        ("messages", messages, messages),
        ("bytes", 115 * messages, 11 * messages),
        ("dropped", 0, 0),
        ("orphans", 0, 0),
        ("wrong", 0, 0),
    ] {
        table += &format!("{name:12}{first:17}{second:17}\n");
    }
    format!("\n{table}{read}, Malformed 0, Elsewhere 0\nin no frame: 0 ")
}

#[test]
fn a_long_pass_takes_little_memory() {
    let folder = Folder::new("long");
    let times = repeat(&folder, LONG);
    let (end, err) = run(&folder, &["decode", "--circuits", "01,02:07", "long"]);
    assert_eq!(err, "", "a bar where there is no terminal");
    let bits = 8 * folder.read("pass").len() * times;
    let totals = totals(times, &format!("bits read {bits}; System 0, Spoilt 0"));
    let end = String::from_utf8(end).unwrap();
    assert!(end.contains(&totals), "{end}");
}

#[test]
fn a_long_line_takes_little_memory() {
    let folder = Folder::new("long-line");
    let times = repeat(&folder, LONG / 4);
    assert_eq!(folder.run(&["line", "pass", "-o", "once"]).status, 0);
    let once = folder.read("once");
    let bytes = once.len() * times;
    let (end, err) = run(&folder, &["line", "long", "-o", "-"]);
    assert!(!end.is_empty() && once.ends_with(&end));
    let packets = 9 * 40 * times;
    assert_eq!(err, summary(packets, bytes));
    assert_eq!(folder.run(&["line", "long", "-o", "line"]).status, 0);
    let (end, err) = run(
        &folder,
        &["decode", "--line", "--circuits=01,02:07", "line"],
    );
    assert_eq!(err, "");
    let totals = totals(
        times,
        &format!("bytes read {bytes}; System 0, Dropped frames 0"),
    );
    let end = String::from_utf8(end).unwrap();
    assert!(end.contains(&totals), "{end}");
}

/// A long capture read, and the pass put into its other channel.
#[test]
fn a_long_capture_takes_little_memory() {
    let folder = Folder::new("long-capture");
    let left = ["--format=iec958"];
    let right = ["--format=iec958", "--channel=right"];
    let times = repeat_in(&folder, LONG, &left);
    let decode = ["decode", "--circuits", "01,02:07", "long"];
    let (end, err) = run(&folder, &[&decode[..], &left].concat());
    assert_eq!(err, "");
    let bits = folder.read("pass").len() / 8 * times;
    let totals = totals(times, &format!("bits read {bits}; System 0, Spoilt 0"));
    let end = String::from_utf8(end).unwrap();
    assert!(end.contains(&totals), "{end}");

    let into = ["encode", "plan", "--into", "long", "-o", "-"];
    let (end, err) = run(&folder, &[&into[..], &right].concat());
    let rest = bits - bits / times;
    let keeps = format!("\nlong: channel right keeps the user bits of its last {rest} words\n");
    assert!(err.ends_with(&keeps), "{err}");
    assert!(folder.read("pass").ends_with(&end));
}

/// The last part of what the program writes, and the most memory that it took, in kB.
fn follow(child: &mut Child) -> (Vec<u8>, u64) {
    let mut out = child.stdout.take().unwrap();
    let mut end = Vec::new();
    let mut memory = 0;
    let mut buffer = vec![0; 1 << 20];
    loop {
        let count = out.read(&mut buffer).unwrap();
        if count == 0 {
            return (end, memory);
        }
        end.extend_from_slice(&buffer[..count]);
        end.drain(..end.len().saturating_sub(2000));
        memory = most_memory(child.id()).unwrap_or(memory);
    }
}

/// The high-water mark of a running program's memory, in kB; none where it has ended.
fn most_memory(id: u32) -> Option<u64> {
    let status = fs::read_to_string(format!("/proc/{id}/status")).ok()?;
    let line = status
        .lines()
        .find_map(|line| line.strip_prefix("VmHWM:"))?;
    line.trim().strip_suffix(" kB")?.trim().parse().ok()
}
