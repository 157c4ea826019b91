//! A serial line to a terminal and from one, and the width of a terminal. `tests/terminal` runs these where a terminal can be opened, and says so where none can.

use std::fs::File;
use std::io::{BufRead, BufReader, IsTerminal};
use std::process::{Command, Stdio};

use super::line::{folder, summary};
use super::runs::Folder;

/// Each opening of this device is a terminal of its own.
const TERMINAL: &str = "/dev/ptmx";

/// A terminal.
fn terminal() -> File {
    let opened = File::options().read(true).write(true).open(TERMINAL);
    let terminal = opened.expect(TERMINAL);
    assert!(terminal.is_terminal());
    terminal
}

/// What is said of a terminal of that name.
fn note(name: &str) -> String {
    format!("aes18: note: {name} is a terminal; it must be in raw mode (stty raw -echo), or it changes bytes of the line\n")
}

/// The note comes before the summary, and the status stays 0.
#[test]
#[ignore = "needs a terminal: tests/terminal"]
fn a_line_to_a_terminal() {
    let terminal = terminal();
    let folder = folder("line-to-terminal");
    let summary = summary(8, 135);
    let ran = folder.run(&["line", "bits", "-o", TERMINAL]);
    assert_eq!((ran.status, ran.err), (0, note(TERMINAL) + &summary));
    let child = folder
        .command(&["line", "bits", "-o", "-"])
        .stdout(terminal)
        .stderr(Stdio::piped())
        .spawn();
    let output = child.unwrap().wait_with_output().unwrap();
    assert!(output.status.success());
    let said = String::from_utf8(output.stderr).unwrap();
    assert_eq!(said, note("standard output") + &summary);
}

/// The note comes before the first byte, for which the program waits here: nobody sends one.
#[test]
#[ignore = "needs a terminal: tests/terminal"]
fn a_line_from_a_terminal() {
    let terminal = terminal();
    let folder = folder("line-from-terminal");
    let cases = [
        ("-", "standard input", Stdio::from(terminal)),
        (TERMINAL, TERMINAL, Stdio::null()),
    ];
    for (file, name, stdin) in cases {
        let mut child = folder
            .command(&["decode", "--line", "--circuits=01", file])
            .stdin(stdin)
            .stdout(Stdio::null())
            .stderr(Stdio::piped())
            .spawn()
            .unwrap();
        let mut said = String::new();
        let mut err = BufReader::new(child.stderr.take().unwrap());
        err.read_line(&mut said).unwrap();
        child.kill().unwrap();
        child.wait().unwrap();
        assert_eq!(said, note(name));
    }
}

/// Only a serial line has to be raw.
#[test]
#[ignore = "needs a terminal: tests/terminal"]
fn user_bits_to_a_terminal() {
    let terminal = terminal();
    let folder = folder("bits-to-terminal");
    let child = folder
        .command(&["encode", "plan", "-o", "-"])
        .stdout(terminal)
        .stderr(Stdio::piped())
        .spawn();
    let output = child.unwrap().wait_with_output().unwrap();
    assert!(output.status.success());
    let said = String::from_utf8(output.stderr).unwrap();
    assert!(!said.contains("note:"), "{said}");
}

/// What is seen of a command of the shell in a terminal with so many columns.
fn seen(folder: &Folder, columns: u32, command: &str) -> String {
    let command = format!("stty cols {columns} rows 30; {command}");
    let output = Command::new("script")
        .args(["-qec", &command, "/dev/null"])
        .current_dir(folder.path("."))
        .env("SHELL", "/bin/sh")
        .env_remove("COLUMNS")
        .stdin(Stdio::null())
        .output()
        .expect("script");
    assert!(output.status.success());
    String::from_utf8(output.stdout)
        .unwrap()
        .replace("\r\n", "\n")
}

/// The picture is as wide as the terminal, as far as a picture may be.
#[test]
#[ignore = "needs a terminal: tests/terminal"]
fn the_width_of_a_terminal() {
    let folder = folder("terminal-width");
    let show = ["show", "--circuits=01", "--color=never", "bits"];
    let program = env!("CARGO_BIN_EXE_aes18");
    let command = format!("'{program}' {}", show.join(" "));
    for (columns, width) in [(20, 40), (60, 60), (80, 80), (133, 133)] {
        let expected = folder.run(&[&show[..], &["--width", &width.to_string()]].concat());
        assert_eq!(seen(&folder, columns, &command), expected.told());
        let rows = seen(&folder, columns, &command);
        let rows = rows.lines().skip(1).take_while(|line| !line.is_empty());
        assert!(rows.map(str::len).max().unwrap() <= width as usize);
    }
    let expected = folder.run(&[&show[..], &["--width=70"]].concat()).told();
    assert_eq!(
        seen(&folder, 90, &format!("COLUMNS=70 {command}")),
        expected
    );
    assert_eq!(
        seen(&folder, 90, &format!("{command} --width=70")),
        expected
    );
}

/// Every reading that takes a while shows how far it has come, unless the picture or the notices go to the terminal, and unless it is to be quiet.
#[test]
#[ignore = "needs a terminal: tests/terminal"]
fn a_bar() {
    let folder = folder("terminal-bar");
    let program = env!("CARGO_BIN_EXE_aes18");
    let shown = |arguments: &str| {
        let slowly = "(cat bits; sleep 0.7; cat bits)";
        let seen = seen(&folder, 80, &format!("{slowly} | '{program}' {arguments}"));
        let erased = seen.matches("\r\x1b[K").count();
        assert_eq!(
            seen.contains("\r\x1b[K0.0 MB\r\x1b[K"),
            erased == 2,
            "{seen:?}"
        );
        erased == 2
    };
    for (arguments, bar) in [
        ("scan -", true),
        ("scan - >out", true),
        ("scan - --quiet", false),
        ("line - -o line", true),
        ("line - -o line -q", false),
        ("show --circuits=01 -", false),
        ("show --circuits=01 - >out", true),
        ("show --circuits=01 - --svg=out.svg", true),
        ("show --circuits=01 - --svg=out.svg -q", false),
        ("decode --circuits=01 -", false),
        ("decode --circuits=01 - >out", true),
        ("decode --circuits=01 - -q >out", false),
    ] {
        assert_eq!(shown(arguments), bar, "{arguments}");
    }
}

/// The bar is as wide as the terminal that it is drawn on, also where the standard output goes elsewhere.
#[test]
#[ignore = "needs a terminal: tests/terminal"]
fn the_width_of_a_bar() {
    let folder = folder("terminal-bar-width");
    // flags alone, which take longer than half a second to read
    std::fs::write(folder.path("long"), vec![0x7e; 100_000_000]).unwrap();
    let program = env!("CARGO_BIN_EXE_aes18");
    let command = format!("'{program}' decode --circuits=01 long >out");
    for (columns, length) in [(20, 5..=5), (45, 44..=44), (120, 64..=68)] {
        let seen = seen(&folder, columns, &command);
        let bar = seen.split("\r\x1b[K").find(|bar| bar.contains('%'));
        assert!(length.contains(&bar.unwrap().len()), "{bar:?}");
    }
}
