//! `aes18 decode`: notices, messages and totals.

use std::io::Read;
use std::process::Stdio;

use serde_json::{json, Value};

use super::encode::PLAN;
use super::runs::{names, objects, Folder};

/// What the bits of the plan hold.
const NOTICES: &str = "\
bit 200: 7E, loss 0, Begun
bit 392: 7E, loss 0, Copy
bit 584: 7E, loss 0, Copy
bit 706: 7E, loss 0, Whole, length 20: FFFFFFFFFFFFFFFFFFFFFFFFFFFFFFFFFFFFFFFF
bit 804: 7E, loss 0, Copy
bit 902: 7E, loss 0, Copy
bit 1030: 01, loss 0, Whole, length 10: \"charge 71%\"
bit 1281: System, enable bits 5 (priorities 0 and 2), code 8, length 3: 010203
";
const TOTALS: &str = "
circuit                    01            02:07               7E
packets                     1                0                2
copies                      0                0                4
lost                        0                0                0
modulo 8                    0                0                0
begun                       0                0                1
held                        0                0                0
messages                    1                0                1
bytes                      10                0               20
dropped                     0                0                0
orphans                     0                0                0
wrong                       0                0                0
bits read 1808; System 1, Spoilt 0, Malformed 0, Elsewhere 0
in no frame: 0 bits in 0 stretches
before the first flag 0
known only modulo 8: 0 places
No trace is left by bits missing altogether, dropouts to flags and,
without --block, dropouts to ones behind a flag.
";

/// A folder with the bits of the plan.
fn folder(name: &str) -> Folder {
    let folder = Folder::new(name);
    folder.write("plan", PLAN);
    assert_eq!(folder.run(&["encode", "plan", "-o", "bits"]).status, 0);
    folder
}

#[test]
fn notices_and_totals() {
    let folder = folder("decode");
    let told = folder
        .run(&["decode", "--circuits", "01,02:07,7E", "bits"])
        .told();
    assert_eq!(told, format!("{NOTICES}{TOTALS}"));
}

#[test]
fn standard_input() {
    let folder = folder("stdin");
    let bits = folder.read("bits");
    let ran = folder.run_with(&["decode", "-", "--circuits=1 2:7 7e"], &bits);
    assert_eq!(ran.told(), format!("{NOTICES}{TOTALS}"));
}

#[test]
fn circuits_not_listed() {
    let folder = folder("elsewhere");
    let told = folder
        .run(&["decode", "--circuits", "01:00", "bits"])
        .told();
    assert_eq!(told.matches(": Elsewhere, 7E\n").count(), 6);
    assert_eq!(told.matches(": Elsewhere, 01\n").count(), 1);
    assert!(told.contains("Malformed 0, Elsewhere 7\n"), "{told}");
    let told = folder
        .run(&["decode", "--json", "--circuits=01:00", "bits"])
        .told();
    let first = r#"{"bit":200,"notice":"Elsewhere","circuit":"7E"}"#;
    assert_eq!(told.lines().next().unwrap(), first);
}

/// A torn bit spoils a frame, and what was lost with it is told.
#[test]
fn torn_bits() {
    let folder = Folder::new("torn");
    let plan = "circuits 01\noffer 0 0 0 @message\nblock 2000 2000\n";
    folder.write("message", [b'a'; 40]);
    folder.write("plan", plan);
    folder.run(&["encode", "plan", "-o", "bits"]);
    let mut bits = folder.read("bits");
    bits[30] ^= 1;
    folder.write("bits", &bits);
    let told = folder.run(&["decode", "--circuits", "01", "bits"]).told();
    let expected = "\
bit 177: 01, loss 0, Begun
bit 345: Spoilt
bits 177 to 336: in no frame, 160 bits
bit 465: 01, loss 1, message dropped, Orphan

circuit                    01
packets                     2
copies                      0
lost                        1
modulo 8                    0
begun                       1
held                        0
messages                    0
bytes                       0
dropped                     1
orphans                     1
wrong                       0
bits read 2000; System 0, Spoilt 1, Malformed 0, Elsewhere 0
in no frame: 160 bits in 1 stretch
before the first flag 0
known only modulo 8: 0 places
";
    assert!(told.starts_with(expected), "{told}");
}

/// A torn pass. Of ten packets eight are lost in a row, which looks like none, so the last does not
/// fit; of six two are lost, which is told, and the three behind them are orphans.
pub fn torn_pass(name: &str) -> Folder {
    let folder = Folder::new(name);
    folder.write("ten", [b'a'; 150]);
    folder.write("six", [b'a'; 90]);
    let plan = "circuits 01 02\n\
        offer 0 0 0 @ten\nblock 2000 2000\n\
        offer 0 0 0 @six\nblock 2000 2000\n\
        offer 0 0 5 \"again\"\noffer 1 0 2 \"beside\"\nblock 1000 1000 system 15 1\n";
    let short = "offer 0 0 0 \"again\"\nblock 256 256\n".repeat(3);
    folder.write("plan", format!("{plan}{short}"));
    assert_eq!(folder.run(&["encode", "plan", "-o", "bits"]).status, 0);
    let mut bits = folder.read("bits");
    bits[30..180].fill(0);
    bits[280..300].fill(0);
    folder.write("bits", &bits);
    folder
}

#[test]
fn figures_of_a_torn_pass() {
    let folder = torn_pass("figures");
    let told = folder.run(&["decode", "--circuits", "01", "bits"]).told();
    let expected = "
circuit                    01
packets                    10
copies                      5
lost                        2
modulo 8                    2
begun                       2
held                        0
messages                    4
bytes                      20
dropped                     2
orphans                     3
wrong                       1
bits read 5768; System 1, Spoilt 2, Malformed 0, Elsewhere 3
in no frame: 1664 bits in 2 stretches
before the first flag 0
known only modulo 8: 2 places
";
    assert!(told.contains(expected), "{told}");
}

/// Any bytes are read.
#[test]
fn any_bytes() {
    let folder = Folder::new("any");
    let noise: Vec<u8> = (0..200_000u32)
        .map(|i| (i.wrapping_mul(i).wrapping_mul(0x9E37_79B1) >> 13) as u8)
        .collect();
    folder.write("noise", &noise);
    let ran = folder.run(&["decode", "--circuits", "01", "noise"]);
    let none = "aes18: warning: noise: no frame found, nor in another format or channel\n";
    assert_eq!((ran.status, ran.err.as_str()), (0, none));
    let told = String::from_utf8(ran.out).unwrap();
    assert!(told.contains("\nbits read 1600000; "), "{told}");
}

#[test]
fn json_lines() {
    let folder = folder("json");
    let told = folder
        .run(&["decode", "--json", "--circuits", "01,02:07,7E", "bits"])
        .told();
    let values = objects(&told);
    assert_eq!(values.len(), 9);
    let expected = [
        (
            0,
            r#"{"bit":200,"notice":"Circuit","number":2,"circuit":"7E","loss":0,"fate":"Begun"}"#,
        ),
        (
            6,
            r#"{"bit":1030,"notice":"Circuit","number":0,"circuit":"01","loss":0,"fate":"Whole","length":10,"hex":"63686172676520373125","text":"charge 71%"}"#,
        ),
        (
            7,
            r#"{"bit":1281,"notice":"System","enable":5,"priorities":[0,2],"code":8,"length":3,"hex":"010203"}"#,
        ),
        (8, JSON_TOTALS),
    ];
    for (line, object) in expected {
        assert_eq!(values[line], objects(object)[0]);
        assert_eq!(told.lines().nth(line), Some(object), "the members' order");
    }
}

/// The priorities that a system packet enables, in words and as a list.
#[test]
fn enabled_priorities() {
    let folder = Folder::new("priorities");
    let blocks = [0, 8, 6, 11, 15].map(|bits| format!("block 256 256 system {bits} 0\n"));
    folder.write("plan", format!("circuits 01\n{}", blocks.concat()));
    assert_eq!(folder.run(&["encode", "plan", "-o", "bits"]).status, 0);
    let told = folder.run(&["decode", "--circuits=01", "bits"]).told();
    let lines = told.lines().take(5);
    let words: Vec<&str> = lines.filter_map(|line| line.split(": ").nth(1)).collect();
    let expected = [
        "System, enable bits 0 (no priority), code 0, length 0",
        "System, enable bits 8 (priority 3), code 0, length 0",
        "System, enable bits 6 (priorities 1 and 2), code 0, length 0",
        "System, enable bits 11 (priorities 0, 1 and 3), code 0, length 0",
        "System, enable bits 15 (all priorities), code 0, length 0",
    ];
    assert_eq!(words, expected);
    let told = folder
        .run(&["decode", "--json", "--circuits=01", "bits"])
        .told();
    let notices = &objects(&told)[..5];
    let lists = notices
        .iter()
        .map(|notice| (&notice["enable"], &notice["priorities"]));
    let expected = [
        (0, json!([])),
        (8, json!([3])),
        (6, json!([1, 2])),
        (11, json!([0, 1, 3])),
        (15, json!([0, 1, 2, 3])),
    ];
    let expected = expected.map(|(bits, list)| (json!(bits), list));
    assert!(
        lists.eq(expected.iter().map(|(bits, list)| (bits, list))),
        "{told}"
    );
}

const JSON_TOTALS: &str = r#"{"totals":{"bits":1808,"before":0,"gaps":0,"gap_bits":0,"modulo8":0,"system":1,"spoilt":0,"malformed":0,"elsewhere":0,"circuits":[{"number":0,"circuit":"01","packets":1,"copies":0,"lost":0,"modulo8":0,"begun":0,"held":0,"messages":1,"bytes":10,"dropped":0,"orphans":0,"wrong":0},{"number":1,"circuit":"02:07","packets":0,"copies":0,"lost":0,"modulo8":0,"begun":0,"held":0,"messages":0,"bytes":0,"dropped":0,"orphans":0,"wrong":0},{"number":2,"circuit":"7E","packets":2,"copies":4,"lost":0,"modulo8":0,"begun":1,"held":0,"messages":1,"bytes":20,"dropped":0,"orphans":0,"wrong":0}],"open":[],"untraced":["bits missing altogether","dropouts to flags","dropouts to ones behind a flag"]}}"#;

#[test]
fn json_figures_of_a_torn_pass() {
    let folder = torn_pass("json-figures");
    let told = folder
        .run(&["decode", "--json", "--circuits", "01", "bits"])
        .told();
    let expected = r#"{"totals":{"bits":5768,"before":0,"gaps":2,"gap_bits":1664,"modulo8":2,"system":1,"spoilt":2,"malformed":0,"elsewhere":3,"circuits":[{"number":0,"circuit":"01","packets":10,"copies":5,"lost":2,"modulo8":2,"begun":2,"held":0,"messages":4,"bytes":20,"dropped":2,"orphans":3,"wrong":1}],"open":[],"#;
    let totals = told.lines().last().unwrap();
    assert!(totals.starts_with(expected), "{totals}");
}

/// Text with every character that JSON escapes, and bytes that are no text.
#[test]
fn json_strings() {
    let folder = Folder::new("strings");
    let text = "\"\\\n\r\t/\u{b0}";
    folder.write("text", text);
    folder.write("bytes", b"\x00\xFF");
    folder.write(
        "plan",
        "circuits 01 02\noffer 0 1 0 @text\noffer 1 0 0 @bytes\nblock 800 800\n",
    );
    folder.run(&["encode", "plan", "-o", "bits"]);
    let told = folder
        .run(&["decode", "--json", "--circuits=01,02", "bits"])
        .told();
    let lines = objects(&told);
    assert_eq!(lines[0]["text"], Value::from(text));
    assert_eq!(lines[1]["hex"], Value::from("00FF"));
    assert_eq!(lines[1].get("text"), None);
}

#[test]
fn messages_to_files() {
    let folder = folder("messages");
    let arguments = [
        "decode",
        "--circuits",
        "01,02:07,7E",
        "--messages",
        "a/b",
        "bits",
    ];
    let told = folder.run(&arguments).told();
    assert!(
        told.contains("length 10: \"charge 71%\", file 000002-01.bin\n"),
        "{told}"
    );
    assert_eq!(
        names(&folder.path("a/b")),
        ["000001-7E.bin", "000002-01.bin"]
    );
    assert_eq!(folder.read("a/b/000001-7E.bin"), [0xFF; 20]);
    assert_eq!(folder.read("a/b/000002-01.bin"), b"charge 71%");

    let json = [&arguments[..], &["--json"]].concat();
    let message = "aes18: a/b: expected a folder without messages; 0000";
    for arguments in [&arguments[..], &json] {
        let ran = folder.run(arguments);
        assert_eq!((ran.status, ran.out), (1, Vec::new()));
        assert!(ran.err.starts_with(message), "{}", ran.err);
    }
    assert_eq!(names(&folder.path("a/b")).len(), 2);
}

/// A folder with other files in it is taken as it is.
#[test]
fn messages_beside_other_files() {
    let folder = folder("beside");
    let told = folder
        .run(&["decode", "--json", "--circuits=01", "--messages=.", "bits"])
        .told();
    assert!(
        told.contains(r#""text":"charge 71%","file":"000001-01.bin"}"#),
        "{told}"
    );
    assert_eq!(folder.names(), ["000001-01.bin", "bits", "plan"]);
}

/// Nothing is written where something is wrong.
#[test]
fn refusals_and_bad_files() {
    let folder = folder("refused");
    let none = "No such file or directory (os error 2)";
    let cases: [(&[&str], String); 3] = [
        (&["--circuits=01", "none"], format!("none: {none}")),
        (
            &["--circuits=01", "."],
            ".: expected a file, not a folder".to_string(),
        ),
        (
            &["--circuits=01", "--messages=bits", "bits"],
            "bits: Not a directory (os error 20)".to_string(),
        ),
    ];
    for (arguments, message) in cases {
        let messages = &["--messages=new"][..usize::from(arguments.len() < 3)];
        let arguments = [&["decode"], messages, arguments].concat();
        folder
            .run(&arguments)
            .failed(1, &format!("aes18: {message}\n"));
    }
    assert_eq!(folder.names(), ["bits", "plan"]);
}

/// Runs a decoding of 20,000 messages whose output is closed after its start: it ends quietly.
fn close_early(folder: &Folder, options: &[&str]) {
    let again = "offer 0 0 0 \"again\"\nblock 256 256\n".repeat(20_000);
    folder.write("plan", format!("circuits 01\n{again}"));
    assert_eq!(folder.run(&["encode", "plan", "-o", "bits"]).status, 0);
    let mut child = folder
        .command(&[&["decode", "--circuits=01", "bits"], options].concat())
        .stdout(Stdio::piped())
        .stderr(Stdio::piped())
        .spawn()
        .unwrap();
    let mut start = [0; 40];
    child.stdout.take().unwrap().read_exact(&mut start).unwrap();
    let output = child.wait_with_output().unwrap();
    assert!(start.starts_with(b"bit "));
    assert_eq!((output.status.code(), output.stderr), (Some(0), Vec::new()));
}

/// A reader such as `head` closes the pipe.
#[test]
fn a_closed_pipe() {
    close_early(&Folder::new("closed"), &[]);
}

/// The messages are all written to files still.
#[test]
fn a_closed_pipe_with_messages() {
    let folder = Folder::new("closed-messages");
    close_early(&folder, &["--messages=out"]);
    assert_eq!(names(&folder.path("out")).len(), 20_000);
}

#[cfg(target_os = "linux")]
#[test]
fn a_full_device() {
    let folder = folder("full");
    let full = std::fs::File::options()
        .write(true)
        .open("/dev/full")
        .unwrap();
    let mut command = folder.command(&["decode", "--circuits", "01", "bits"]);
    let output = command.stdout(full).output().unwrap();
    let message = "aes18: standard output: No space left on device (os error 28)\n";
    assert_eq!(output.status.code(), Some(1));
    assert_eq!(String::from_utf8_lossy(&output.stderr), message);
}
