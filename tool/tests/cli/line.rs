//! `aes18 line` and `aes18 decode --line`: the packets of user bits on a serial line, and their notices from there.

use std::io::{BufRead, BufReader, Write};
use std::process::Stdio;

use serde_json::Value;

use super::decode::torn_pass;
use super::encode::PLAN;
use super::frames::{bytes_of, fcs, framed};
use super::runs::{names, objects, Folder};

const ALL: &str = "--circuits=01,02:07,7E";

/// The line of packets.
fn line_of(packets: &[&[u8]]) -> Vec<u8> {
    let mut line = Vec::new();
    for packet in packets {
        line.push(0x7E);
        for byte in [packet, &fcs(packet).to_le_bytes()[..]].concat() {
            match byte {
                0x7E => line.extend([0x7D, 0x5E]),
                0x7D => line.extend([0x7D, 0x5D]),
                _ => line.push(byte),
            }
        }
        line.push(0x7E);
    }
    line
}

/// The lines of notices without their places, and the table, both without what is in no frame and what is said of losses behind it.
fn without_places(told: &str) -> String {
    let notice = |line: &str| match line.split_once(" modulo 8 (") {
        Some((start, end)) => format!("{start}{}\n", end.split_once(')').unwrap().1),
        None => format!("{line}\n"),
    };
    told.lines()
        .take_while(|line| !line.contains("s read "))
        .filter(|line| !line.contains(": in no frame, ") && !line.starts_with("modulo 8 "))
        .map(|line| match line.split_once(": ") {
            Some((place, line)) if place.starts_with('b') => notice(line),
            _ => notice(line),
        })
        .collect()
}

/// What is said of so many packets, as so many bytes, where nothing is in no frame.
pub fn summary(packets: usize, bytes: usize) -> String {
    format!(
        "\
{packets} packets, {bytes} bytes; spoilt frames left out: 0
in no frame: 0 bits in 0 stretches
before the first flag 0
known only modulo 8: 0 places
"
    )
}

/// A folder with the bits of the plan, and their line.
pub fn folder(name: &str) -> Folder {
    let folder = Folder::new(name);
    folder.write("plan", PLAN);
    assert_eq!(folder.run(&["encode", "plan", "-o", "bits"]).status, 0);
    let ran = folder.run(&["line", "bits", "-o", "line"]);
    let summary = summary(8, 135);
    assert_eq!(
        (ran.status, ran.out.as_slice(), ran.err.as_str()),
        (0, &b""[..], summary.as_str())
    );
    folder
}

/// The packets that the specification gives for the plan.
#[test]
fn packets_of_the_specification() {
    let folder = folder("line-packets");
    let begun = [&[0x7E, 0x83, 0x10, 0x14][..], &[0xFF; 14]].concat();
    let whole = [&[0x7E, 0x47][..], &[0xFF; 6]].concat();
    let system = [0xFF, 0xC5, 0x83, 0x01, 0x02, 0x03];
    let charge = b"\x01\x81\x0Acharge 71%";
    let packets: [&[u8]; 8] = [
        &begun, &begun, &begun, &whole, &whole, &whole, charge, &system,
    ];
    assert_eq!(folder.read("line"), line_of(&packets));
    assert_eq!(folder.names(), ["bits", "line", "plan"]);
}

#[test]
fn the_same_notices() {
    let folder = folder("line-notices");
    let bits = folder.run(&["decode", ALL, "bits"]).told();
    let line = folder.run(&["decode", "--line", ALL, "line"]).told();
    assert_eq!(without_places(&line), without_places(&bits));
    let expected = "\
byte 23: 7E, loss 0, Begun
byte 46: 7E, loss 0, Copy
byte 69: 7E, loss 0, Copy
byte 82: 7E, loss 0, Whole, length 20: FFFFFFFFFFFFFFFFFFFFFFFFFFFFFFFFFFFFFFFF
byte 95: 7E, loss 0, Copy
byte 108: 7E, loss 0, Copy
byte 125: 01, loss 0, Whole, length 10: \"charge 71%\"
byte 135: System, enable bits 5 (priorities 0 and 2), code 8, length 3: 010203

circuit                    01            02:07               7E
packets                     1                0                2
copies                      0                0                4
lost                        0                0                0
modulo 8                    0                0                0
begun                       0                0                1
held                        0                0                0
messages                    1                0                1
bytes                      10                0               20
dropped                     0                0                0
orphans                     0                0                0
wrong                       0                0                0
bytes read 135; System 1, Dropped frames 0, Malformed 0, Elsewhere 0
in no frame: 0 bytes in 0 stretches
before the first flag 0, behind the last 0
known only modulo 8: 0 places
No trace is left by bytes missing altogether, dropouts to flags and
what was in no frame in the bits that the line was written from.
";
    assert_eq!(line, expected);
}

#[test]
fn the_same_json() {
    let folder = folder("line-json");
    let told = |arguments: &[&str]| -> Vec<Value> {
        let told = folder
            .run(&[&["decode", "--json", ALL], arguments].concat())
            .told();
        objects(&told)
    };
    let (mut bits, mut line) = (told(&["bits"]), told(&["--line", "line"]));
    assert_eq!((bits.len(), line.len()), (9, 9));
    for (bits, line) in bits.iter_mut().zip(&mut line).take(8) {
        let (bits, line) = (bits.as_object_mut().unwrap(), line.as_object_mut().unwrap());
        assert!(bits.remove("bit").is_some() && line.remove("byte").is_some());
        assert_eq!(bits, line);
    }
    let begun = r#"{"notice":"Circuit","number":2,"circuit":"7E","loss":0,"fate":"Begun"}"#;
    assert_eq!(line[0], objects(begun)[0]);
    let (bits, line) = (&bits[8]["totals"], &line[8]["totals"]);
    assert_eq!(line["circuits"], bits["circuits"]);
    let figures = [
        "bytes",
        "before",
        "behind",
        "gaps",
        "gap_bytes",
        "dropped_frames",
        "system",
    ];
    let figures = figures.map(|figure| line[figure].as_u64().unwrap());
    assert_eq!(figures, [135, 0, 0, 0, 0, 0, 1]);
    let untraced = [
        "bytes missing altogether",
        "dropouts to flags",
        "what was in no frame in the bits that the line was written from",
    ];
    assert_eq!(line["untraced"], Value::from(untraced.to_vec()));
}

#[test]
fn the_same_messages() {
    let folder = folder("line-messages");
    for (directory, arguments) in [("a", &["bits"][..]), ("b", &["--line", "line"])] {
        let messages = format!("--messages={directory}");
        let told = folder.run(&[&["decode", ALL, &messages], arguments].concat());
        assert!(told.told().contains(", file 000002-01.bin\n"));
    }
    let files = names(&folder.path("a"));
    assert_eq!(files, ["000001-7E.bin", "000002-01.bin"]);
    assert_eq!(names(&folder.path("b")), files);
    for file in files {
        assert_eq!(
            folder.read(&format!("a/{file}")),
            folder.read(&format!("b/{file}"))
        );
    }
}

#[test]
fn standard_input_and_output() {
    let folder = folder("line-streams");
    let (bits, line) = (folder.read("bits"), folder.read("line"));
    let ran = folder.run_with(&["line", "--output=-", "-"], &bits);
    let summary = summary(8, 135);
    assert_eq!(
        (ran.status, ran.out, ran.err.as_str()),
        (0, line.clone(), summary.as_str())
    );
    let from_file = folder.run(&["decode", "--line", ALL, "line"]).told();
    let from_pipe = folder.run_with(&["decode", ALL, "--line", "-"], &line);
    assert_eq!(from_pipe.told(), from_file);
    assert_eq!(folder.names(), ["bits", "line", "plan"]);
}

/// Packets of every length, of any address, of the system and malformed, and with every byte, are on the line as they are in the bits.
#[test]
fn packets_of_any_kind() {
    let folder = Folder::new("line-kinds");
    let mut packets: Vec<Vec<u8>> = (2..=19).map(|length| vec![0x7D; length]).collect();
    packets.extend((2..=19).map(|length| vec![0x7E; length]));
    packets.extend((0..=255).map(|byte: u8| vec![byte, 0x83, byte, byte.wrapping_mul(3)]));
    packets.push(vec![0xFF, 0xCF, 0x00]);
    packets.push(vec![0xFF; 19]);
    let packets: Vec<&[u8]> = packets.iter().map(Vec::as_slice).collect();
    folder.write("bits", bytes_of(&framed(&packets)));
    let ran = folder.run(&["line", "bits", "-o", "line"]);
    let line = line_of(&packets);
    assert_eq!((ran.status, ran.err), (0, summary(294, line.len())));
    assert_eq!(folder.read("line"), line);
    let bits = folder.run(&["decode", ALL, "bits"]).told();
    let line = folder.run(&["decode", "--line", ALL, "line"]).told();
    assert!(line.contains(": Malformed\n") && line.contains(": Elsewhere, FD\n"));
    assert_eq!(without_places(&line), without_places(&bits));
}

/// Spoilt frames are not on the line; the losses and all figures of the circuits are told from it as from the bits.
#[test]
fn torn_bits() {
    let folder = torn_pass("line-torn");
    let ran = folder.run(&["line", "bits", "-o", "line"]);
    assert!(ran.err.starts_with("19 packets, "), "{}", ran.err);
    let end = " bytes; spoilt frames left out: 2
in no frame: 1664 bits in 2 stretches
before the first flag 0
known only modulo 8: 2 places
";
    assert!(ran.err.ends_with(end), "{}", ran.err);
    assert_eq!(ran.status, 0);
    let bits = folder.run(&["decode", "--circuits=01", "bits"]).told();
    let line = folder
        .run(&["decode", "--line", "--circuits=01", "line"])
        .told();
    let spoilt = without_places(&bits);
    assert_eq!(spoilt.matches("Spoilt\n").count(), 2);
    assert_eq!(without_places(&line), spoilt.replace("Spoilt\n", ""));
    assert!(
        line.contains("; System 1, Dropped frames 0, Malformed 0, Elsewhere 3\n"),
        "{line}"
    );
}

/// Bytes before the first flag, frames that are dropped, shared flags and bytes behind the last flag.
#[test]
fn a_damaged_line() {
    let folder = Folder::new("line-damaged");
    let one = line_of(&[b"\x01\x81\x03one"]);
    let two = line_of(&[b"\x01\x85\x03two"]);
    let four = line_of(&[b"\x01\x8D\x04four"]);
    let mut three = line_of(&[b"\x01\x89\x05three"]);
    three[5] ^= 0x01;
    let short = line_of(&[&b"\x01"[..]]);
    let long = line_of(&[&[0x01; 20][..]]);
    let aborted = b"~\x01\x89}~";
    let line = [
        b"} before",
        &one[..],
        &two[1..],
        &three,
        &short,
        &long,
        aborted,
        &four,
        b"behind",
    ];
    folder.write("line", line.concat());
    let told = folder
        .run(&["decode", "--line", "--circuits=01", "line"])
        .told();
    let expected = "\
bytes 0 to 7: before the first flag, 8 bytes
byte 18: 01, loss 0, Whole, length 3: \"one\"
byte 27: 01, loss 0, Whole, length 3: \"two\"
bytes 28 to 37: in no frame, 10 bytes
bytes 40 to 42: in no frame, 3 bytes
bytes 45 to 66: in no frame, 22 bytes
bytes 69 to 71: in no frame, 3 bytes
byte 84: 01, loss 1 modulo 8 (38 bytes in no frame), Whole, length 4: \"four\"
bytes 84 to 89: in no frame, 6 bytes

circuit                    01
packets                     3
copies                      0
lost                        1
modulo 8                    1
begun                       0
held                        0
messages                    3
bytes                      10
dropped                     0
orphans                     0
wrong                       0
bytes read 90; System 0, Dropped frames 4, Malformed 0, Elsewhere 0
in no frame: 44 bytes in 5 stretches
before the first flag 8, behind the last 6
known only modulo 8: 1 place
No trace is left by bytes missing altogether, dropouts to flags and
what was in no frame in the bits that the line was written from.
";
    assert_eq!(told, expected);
    let ran = folder.run(&["decode", "--line", "--strict", "--circuits=01", "line"]);
    assert_eq!((ran.status, ran.out), (3, expected.as_bytes().to_vec()));
    let faults = "1 packet lost, 1 place known only modulo 8, 44 bytes in no frame";
    assert_eq!(ran.err, format!("aes18: line: --strict: {faults}\n"));
}

/// From 35 bytes in no frame on a loss is known only modulo 8: the flags between two stretches count where they border nothing else.
#[test]
fn doubtful_bytes() {
    let folder = Folder::new("line-doubtful");
    let (one, two) = (line_of(&[b"\x01\x80\x01a"]), line_of(&[b"\x01\x80\x01a"]));
    for (dropped, doubtful) in [
        (vec![b'-'; 34], false),
        (vec![b'-'; 35], true),
        ([&[b'-'; 17][..], b"~", &[b'-'; 16]].concat(), false),
        ([&[b'-'; 17][..], b"~", &[b'-'; 17]].concat(), true),
        ([&[b'-'; 17][..], b"~~", &[b'-'; 17]].concat(), false),
        ([&[b'-'; 18][..], b"~~", &[b'-'; 17]].concat(), true),
    ] {
        folder.write("line", [&one[..], &dropped, &two].concat());
        let told = folder
            .run(&["decode", "--line", "--circuits=01", "line"])
            .told();
        assert_eq!(
            told.contains(", loss 0 modulo 8 (35 bytes in no frame), Copy\n"),
            doubtful,
            "{told}"
        );
        assert_eq!(told.contains(", loss 0, Copy\n"), !doubtful, "{told}");
    }
}

/// Bytes before the first flag and behind the last are told: noise, a last frame whose closing flag is missing, and a line without a flag.
#[test]
fn bytes_in_no_frame() {
    let folder = Folder::new("line-outside");
    let frame = line_of(&[b"\x01\x81\x03one"]);
    let unclosed = &frame[..frame.len() - 1];
    let body = &unclosed[1..];
    let length = body.len();
    // Messages, bytes before the first flag, behind the last, and in no frame.
    let cases: [(Vec<u8>, usize, usize, usize, usize); 7] = [
        (frame.clone(), 1, 0, 0, 0),
        ([b"} noise", &frame[..]].concat(), 1, 7, 0, 0),
        (unclosed.to_vec(), 0, 0, length, length + 1),
        ([&frame[..], unclosed].concat(), 1, 0, length, length),
        ([body, &frame, body].concat(), 1, length, length, length),
        (body.to_vec(), 0, 0, 0, length),
        (vec![0x7D; 100_000], 0, 0, 0, 100_000),
    ];
    for (line, messages, before, behind, free) in cases {
        folder.write("line", &line);
        let warning = match messages {
            0 => {
                "aes18: warning: line: no frame found, nor as user bits in any format or channel\n"
            }
            _ => "",
        };
        let told = |option: &[&str]| {
            let ran =
                folder.run(&[&["decode", "--line", "--circuits=01", "line"], option].concat());
            assert_eq!((ran.status, ran.err.as_str()), (0, warning));
            String::from_utf8(ran.out).unwrap()
        };
        let (text, json) = (told(&[]), told(&["--json"]));
        assert_eq!(text.matches("Whole").count(), messages, "{text}");
        let (read, gaps) = (line.len(), usize::from(free > 0));
        assert!(
            text.contains(&format!(
                "\nbytes read {read}; System 0, Dropped frames 0, "
            )),
            "{text}"
        );
        let outside = format!("\nbefore the first flag {before}, behind the last {behind}\n");
        assert!(
            text.contains(&format!("\nin no frame: {free} bytes in {gaps} stretch")),
            "{text}"
        );
        assert!(text.contains(&outside), "{text}");
        let totals = format!(
            r#"{{"totals":{{"bytes":{read},"before":{before},"behind":{behind},"gaps":{gaps},"gap_bytes":{free},"#
        );
        assert!(json.lines().last().unwrap().starts_with(&totals), "{json}");
        let strict = folder.run(&["decode", "--line", "--circuits=01", "--strict", "line"]);
        assert_eq!(strict.status, if free > 0 { 3 } else { 0 }, "{text}");
    }
}

/// A line that comes byte by byte is told as it comes: each notice stands there before the next byte is sent.
#[test]
fn a_line_byte_by_byte() {
    let folder = folder("line-bytes");
    let line = folder.read("line");
    let expected = folder.run(&["decode", "--line", ALL, "line"]).told();
    let mut child = folder
        .command(&["decode", "--line", ALL, "-"])
        .stdin(Stdio::piped())
        .stdout(Stdio::piped())
        .spawn()
        .unwrap();
    let mut stdin = child.stdin.take().unwrap();
    let mut told = BufReader::new(child.stdout.take().unwrap());
    let mut sent = 0;
    let (notices, _) = expected.split_once("\n\n").unwrap();
    assert!(notices.lines().all(|line| line.starts_with("byte ")));
    for notice in notices.lines() {
        let (place, _) = notice.split_once(':').unwrap();
        let place: usize = place.strip_prefix("byte ").unwrap().parse().unwrap();
        while sent < place {
            stdin.write_all(&line[sent..sent + 1]).unwrap();
            stdin.flush().unwrap();
            sent += 1;
        }
        let mut next = String::new();
        told.read_line(&mut next).unwrap();
        assert_eq!(next, format!("{notice}\n"));
    }
    assert_eq!(sent, line.len());
    drop(stdin);
    let rest: Vec<String> = told.lines().map(Result::unwrap).collect();
    assert_eq!(
        notices.to_string() + "\n" + &rest.join("\n") + "\n",
        expected
    );
    assert!(child.wait().unwrap().success());
}

/// Bits that come byte by byte give the same line.
#[test]
fn bits_byte_by_byte() {
    let folder = folder("line-bits");
    let mut child = folder
        .command(&["line", "-", "-o", "again"])
        .stdin(Stdio::piped())
        .stderr(Stdio::null())
        .spawn()
        .unwrap();
    let mut stdin = child.stdin.take().unwrap();
    for byte in folder.read("bits") {
        stdin.write_all(&[byte]).unwrap();
    }
    assert!(!folder.path("again").exists(), "the file is not complete");
    drop(stdin);
    assert!(child.wait().unwrap().success());
    assert_eq!(folder.read("again"), folder.read("line"));
}

/// Bits without a frame, and any bits; any bytes as a line.
#[test]
fn nothing_and_anything() {
    let folder = Folder::new("line-nothing");
    for (byte, free) in [
        (0x00, "800 bits in 1 stretch"),
        (0xFF, "800 bits in 1 stretch"),
        (0x7E, "0 bits in 0 stretches"),
        (0x55, "800 bits in 1 stretch"),
    ] {
        folder.write("bits", [byte; 100]);
        let ran = folder.run(&["line", "bits", "-o", "line"]);
        let nothing = format!(
            "\
aes18: warning: bits: no frame found, nor in another format or channel
0 packets, 0 bytes; spoilt frames left out: 0
in no frame: {free}
before the first flag 0
known only modulo 8: 0 places
"
        );
        assert_eq!((ran.status, ran.err), (0, nothing));
        assert_eq!(folder.read("line"), b"");
    }
    let noise: Vec<u8> = (0..200_000u32)
        .map(|i| (i.wrapping_mul(i).wrapping_mul(0x9E37_79B1) >> 13) as u8)
        .collect();
    folder.write("noise", &noise);
    assert_eq!(folder.run(&["line", "noise", "-o", "line"]).status, 0);
    let ran = folder.run(&["decode", "--line", "--circuits=01", "noise"]);
    let told = String::from_utf8(ran.out).unwrap();
    let is_flag = |byte: &u8| *byte == 0x7E;
    let before = noise.iter().position(is_flag).unwrap();
    let behind = noise.iter().rev().position(is_flag).unwrap();
    let outside = format!("\nbefore the first flag {before}, behind the last {behind}\n");
    assert!(
        told.contains("\nbytes read 200000; System 0, Dropped frames "),
        "{told}"
    );
    assert!(told.contains(&outside), "{told}");
}

/// Nothing is written where something is wrong, and what stood there stays.
#[test]
fn files_that_cannot_be_used() {
    let folder = folder("line-unusable");
    folder.write("old", "as before");
    std::fs::create_dir(folder.path("folder")).unwrap();
    let none = "No such file or directory (os error 2)";
    let a_folder = "folder: expected a file, not a folder";
    let cases = [
        ("none", "old", format!("none: {none}")),
        ("folder", "old", a_folder.to_string()),
        ("bits", "folder", a_folder.to_string()),
        ("bits", "none/line", format!("none/line: {none}")),
        #[cfg(target_os = "linux")]
        (
            "/proc/self/mem",
            "old",
            "/proc/self/mem: Input/output error (os error 5)".to_string(),
        ),
        #[cfg(target_os = "linux")]
        (
            "bits",
            "/dev/full",
            "/dev/full: No space left on device (os error 28)".to_string(),
        ),
    ];
    for (bits, line, message) in cases {
        let message = format!("aes18: {message}\n");
        folder.run(&["line", bits, "-o", line]).failed(1, &message);
    }
    assert_eq!(folder.read("old"), b"as before");
    assert_eq!(folder.names(), ["bits", "folder", "line", "old", "plan"]);

    let message = format!("aes18: none: {none}\n");
    folder
        .run(&["decode", "--line", ALL, "none"])
        .failed(1, &message);
    assert_eq!(folder.run(&["line", "bits", "-o", "old"]).status, 0);
    assert_eq!(folder.read("old"), folder.read("line"));
}

/// User bits read as a line get a warning that tells where their frames are; a pipe cannot be read again.
#[test]
fn bits_for_a_line() {
    let folder = folder("line-of-bits");
    let ran = folder.run(&["decode", "--line", ALL, "bits"]);
    let found = "\
aes18: warning: bits: no frame found
  8 frames without --line, with --format bits
";
    assert_eq!((ran.status, ran.err.as_str()), (0, found));
    let ran = folder.run_with(&["decode", "--line", ALL, "-"], &folder.read("bits"));
    let found = "aes18: warning: standard input: no frame found\n";
    assert_eq!((ran.status, ran.err.as_str()), (0, found));
    let quiet = folder.run(&["decode", "--line", "--quiet", ALL, "bits"]);
    assert_eq!((quiet.status, quiet.err.as_str()), (0, ""));
}
