//! A signal ends the tool and leaves no file behind that is not complete.
#![cfg(target_os = "linux")]

use std::io::{BufRead, BufReader, Write};
use std::os::unix::fs::PermissionsExt;
use std::os::unix::process::ExitStatusExt;
use std::process::{Child, ChildStdin, Command, Stdio};
use std::thread::sleep;
use std::time::Duration;
use std::{fs, path::Path};

use super::encode::PLAN;
use super::runs::{names, Folder};

const SIGNALS: [(&str, i32); 3] = [("HUP", 1), ("INT", 2), ("TERM", 15)];

/// A folder with the plan and its bits.
fn folder(name: &str) -> Folder {
    let folder = Folder::new(name);
    folder.write("plan", PLAN);
    assert_eq!(folder.run(&["encode", "plan", "-o", "bits"]).status, 0);
    folder
}

/// A command that runs the program in a folder. It gets the signals, also where whoever runs the tests ignores some.
fn command(folder: &Folder, arguments: &[&str]) -> Command {
    let mut command = Command::new("env");
    command
        .args(["--default-signal=HUP,INT,TERM", env!("CARGO_BIN_EXE_aes18")])
        .args(arguments)
        .current_dir(folder.path("."));
    command
}

/// Starts the program and gives it bytes; it waits for more as long as the input is kept.
fn start(mut command: Command, bytes: &[u8]) -> (Child, ChildStdin) {
    let mut child = command
        .stdin(Stdio::piped())
        .stdout(Stdio::piped())
        .stderr(Stdio::null())
        .spawn()
        .unwrap();
    let mut stdin = child.stdin.take().unwrap();
    stdin.write_all(bytes).unwrap();
    (child, stdin)
}

/// Waits until a file that is not complete is in a folder.
fn wait_for_draft(folder: &Path) {
    let is_draft = |name: &String| name.starts_with(".aes18-");
    for _ in 0..1000 {
        if folder.is_dir() && names(folder).iter().any(is_draft) {
            return;
        }
        sleep(Duration::from_millis(10));
    }
    panic!("no draft in {}", folder.display());
}

fn send(signal: &str, child: &Child) {
    let id = child.id().to_string();
    let sent = Command::new("kill").args(["-s", signal, &id]).status();
    assert!(sent.unwrap().success());
}

/// What is written is gone, and what stood in its place is there still. Whoever waits sees the signal.
#[test]
fn drafts_are_gone() {
    let folder = folder("signals");
    folder.write("old", "as before");
    let bits = folder.read("bits");
    let circuits = "--circuits=01";
    let cases: [&[&str]; 4] = [
        &["line", "-", "-o", "old"],
        &["line", "-", "-o", "new"],
        &["show", circuits, "-", "--svg", "old"],
        &["show", circuits, "-", "--svg", "new"],
    ];
    for (signal, number) in SIGNALS {
        for arguments in cases {
            let (mut child, _stdin) = start(command(&folder, arguments), &bits);
            wait_for_draft(&folder.path("."));
            send(signal, &child);
            assert_eq!(
                child.wait().unwrap().signal(),
                Some(number),
                "{arguments:?}"
            );
            assert_eq!(folder.names(), ["bits", "old", "plan"]);
            assert_eq!(folder.read("old"), b"as before");
        }
    }
}

/// A plan of many blocks takes a while to be sent.
#[test]
fn a_long_plan() {
    let folder = Folder::new("signals-encode");
    folder.write(
        "plan",
        format!("circuits 01\n{}", "block 27000 27000\n".repeat(20_000)),
    );
    let (mut child, _stdin) = start(command(&folder, &["encode", "plan", "-o", "bits"]), b"");
    wait_for_draft(&folder.path("."));
    send("INT", &child);
    assert_eq!(child.wait().unwrap().signal(), Some(2));
    assert_eq!(folder.names(), ["plan"]);
}

/// Messages that were told stay, and are whole.
#[test]
fn messages_stay() {
    let folder = folder("signals-messages");
    let bits = folder.read("bits");
    for (signal, number) in SIGNALS {
        let arguments = ["decode", "--circuits=01,7E", "--messages=out", "-"];
        let (mut child, _stdin) = start(command(&folder, &arguments), &bits);
        wait_for_draft(&folder.path("out"));
        let told = BufReader::new(child.stdout.take().unwrap());
        let last = told.lines().nth(6).unwrap().unwrap();
        assert!(last.ends_with("file 000002-01.bin"), "{last}");
        send(signal, &child);
        assert_eq!(child.wait().unwrap().signal(), Some(number));
        let out = folder.path("out");
        assert_eq!(names(&out), ["000001-7E.bin", "000002-01.bin"]);
        assert_eq!(folder.read("out/000002-01.bin"), b"charge 71%");
        fs::remove_dir_all(out).unwrap();
    }
}

/// A signal that is ignored where the program is started, as `nohup` does, stays ignored.
#[test]
fn ignored_signals() {
    let folder = folder("signals-ignored");
    let bits = folder.read("bits");
    let (first, rest) = bits.split_at(100);
    let mut command = Command::new("sh");
    let program = env!("CARGO_BIN_EXE_aes18");
    let script = format!("trap '' HUP INT; exec '{program}' line - -o line");
    command.args(["-c", &script]).current_dir(folder.path("."));
    let (mut child, mut stdin) = start(command, first);
    wait_for_draft(&folder.path("."));
    send("HUP", &child);
    send("INT", &child);
    stdin.write_all(rest).unwrap();
    drop(stdin);
    assert_eq!(child.wait().unwrap().code(), Some(0));
    assert_eq!(folder.names(), ["bits", "line", "plan"]);
}

/// A file that is written has the mode of any new file.
#[test]
fn modes_of_files() {
    let folder = folder("modes");
    let program = env!("CARGO_BIN_EXE_aes18");
    for (umask, mode) in [
        ("022", 0o644),
        ("027", 0o640),
        ("077", 0o600),
        ("000", 0o666),
    ] {
        let script = format!(
            "umask {umask}; '{program}' line -q bits -o line && '{program}' decode --circuits=01 --messages=out bits"
        );
        let mut command = Command::new("sh");
        command.args(["-c", &script]).current_dir(folder.path("."));
        assert!(command.output().unwrap().status.success());
        for file in ["line", "out/000001-01.bin"] {
            let found = fs::metadata(folder.path(file)).unwrap().permissions();
            assert_eq!(found.mode() & 0o777, mode, "{file}");
        }
        fs::remove_dir_all(folder.path("out")).unwrap();
    }
}
