//! `aes18 scan`, and what decode listens to where no circuits are listed.

use std::fs::File;

use serde_json::{json, Value};

use super::decode::torn_pass;
use super::encode::PLAN;
use super::frames::{bits_of, bytes_of, framed};
use super::runs::{objects, Folder};

/// A folder with the bits of the plan, whose circuits are 7E and 01: those at 02:07 are not placed.
fn folder(name: &str) -> Folder {
    let folder = Folder::new(name);
    folder.write("plan", PLAN);
    assert_eq!(folder.run(&["encode", "plan", "-o", "bits"]).status, 0);
    folder
}

/// A folder with the frames of packets.
fn packets(name: &str, packets: &[&[u8]]) -> Folder {
    let folder = Folder::new(name);
    folder.write("bits", bytes_of(&framed(packets)));
    folder
}

fn parse(text: &str) -> Value {
    serde_json::from_str(text).unwrap()
}

const TABLE: &str =
    "circuit    packets    copies       bytes  modulo 8          from            to\n";

/// What is said at the end where nothing is in no frame.
const END: &str = "\
in no frame: 0 bits in 0 stretches
before the first flag 0
known only modulo 8: 0 places
No trace is left by bits missing altogether, dropouts to flags and,
without --block, dropouts to ones behind a flag.
";

/// Places: 7E's first frame begins the pass; the last of 01 ends where decode tells it.
#[test]
fn circuits_of_a_pass() {
    let folder = folder("scan");
    let told = folder.run(&["scan", "bits"]).told();
    let expected = "\
7E               2         4          26         0             0           902
01               1         0          13         0           894          1030
bits read 1808, circuits 2; System 1, Spoilt 0, Malformed 0
";
    assert_eq!(told, format!("{TABLE}{expected}{END}"));
    let piped = folder.run_with(&["scan", "-"], &folder.read("bits"));
    assert_eq!(piped.told(), told);
}

#[test]
fn json() {
    let folder = folder("scan-json");
    let told = folder.run(&["scan", "--json", "bits"]).told();
    let expected = r#"{"circuit":"7E","packets":2,"copies":4,"bytes":26,"modulo8":0,"from":0,"to":902}
{"circuit":"01","packets":1,"copies":0,"bytes":13,"modulo8":0,"from":894,"to":1030}
{"totals":{"bits":1808,"before":0,"gaps":0,"gap_bits":0,"modulo8":0,"circuits":2,"system":1,"spoilt":0,"malformed":0,"untraced":["bits missing altogether","dropouts to flags","dropouts to ones behind a flag"]}}
"#;
    assert_eq!(told, expected);
    assert_eq!(objects(&told).len(), 3);
}

/// A copy is equal to its circuit's packet before it, in all bytes; an extension makes another circuit; packets of the system and malformed
/// ones are of none.
#[test]
fn copies_extensions_and_no_circuits() {
    let folder = packets(
        "scan-kinds",
        &[
            b"\x02\x81\x02hi",
            b"\x01\x81\x02hi",
            b"\x02\x81\x02hi",
            b"\x01\x80\x02hi",
            b"\x01\x81\x02hi",
            b"\x02\xA1\x81\x02hi",
            b"\x00\xA1\x00\x00",
            b"\x00\x81\x00",
            b"\xFF\xCF\x00",
            b"\xFF\x80segment",
            b"\x02\x81",
        ],
    );
    let told = folder.run(&["scan", "bits"]).told();
    let rows: Vec<Vec<&str>> = told
        .lines()
        .map(|line| line.split_whitespace().take(4).collect())
        .collect();
    assert_eq!(rows[1], ["01", "3", "0", "15"]);
    assert_eq!(rows[2], ["02", "1", "1", "5"]);
    assert_eq!(rows[3], ["02:81", "1", "0", "6"]);
    assert_eq!(rows[4], ["00:00", "1", "0", "4"]);
    assert_eq!(rows[5], ["00", "1", "0", "3"]);
    assert!(
        told.contains(", circuits 5; System 1, Spoilt 0, Malformed 2\n"),
        "{told}"
    );
}

/// A frame begins with the flag before its body, also where flags share a zero, and wherever the bytes that are read end.
#[test]
fn places() {
    let folder = Folder::new("scan-places");
    let frame = framed(&[b"\x01\x81\x02hi"]);
    let length = frame.len();
    for before in [0, 1, 7, 3 * 8, 65536 * 8 - 100, 65536 * 8 - 1, 65536 * 8] {
        let bits = [&vec![false; before][..], &bits_of(&[0x7E]), &frame[1..]].concat();
        folder.write("bits", bytes_of(&bits));
        let told = folder.run(&["scan", "bits"]).told();
        let from = before + 7;
        let row = told.lines().nth(1).unwrap();
        let places: Vec<&str> = row.split_whitespace().skip(5).collect();
        assert_eq!(places, [from.to_string(), (from + length).to_string()]);
    }
}

#[test]
fn damage_and_nothing() {
    let folder = torn_pass("scan-torn");
    let told = folder.run(&["scan", "bits"]).told();
    let end = "
bits read 5768, circuits 2; System 1, Spoilt 2, Malformed 0
in no frame: 1664 bits in 2 stretches
before the first flag 0
known only modulo 8: 2 places
";
    assert!(told.contains(end), "{told}");
    folder.write("zeros", [0; 10]);
    let nothing = "\
bits read 80, circuits 0; System 0, Spoilt 0, Malformed 0
in no frame: 80 bits in 1 stretch
before the first flag 0
known only modulo 8: 0 places
  bits 0 to 79: in no frame, 80 bits
No trace is left by bits missing altogether, dropouts to flags and
dropouts to ones behind a flag up to its block's end.
";
    let ran = folder.run(&["scan", "--block=256", "zeros"]);
    let warning = "aes18: warning: zeros: no frame found, nor in another format or channel\n";
    assert_eq!((ran.status, ran.err.as_str()), (0, warning));
    assert_eq!(String::from_utf8(ran.out).unwrap(), nothing);
    let told = folder.run(&["scan", "--quiet", "--json", "zeros"]).told();
    let objects = objects(&told);
    assert_eq!(
        objects[0],
        json!({"gap": {"from": 0, "to": 80, "bits": 80}})
    );
    assert_eq!(objects[1]["totals"]["gap_bits"], 80);
    assert_eq!(objects.len(), 2);
}

/// Every circuit there can be is heard, with little memory.
#[test]
fn all_circuits() {
    let mut packets: Vec<Vec<u8>> = Vec::new();
    for address in 0..=254 {
        packets.push(vec![address, 0x81, 0x00]);
        packets.extend((0..=255).map(|extension| vec![address, 0xA1, extension, 0x00]));
    }
    let slices: Vec<&[u8]> = packets.iter().map(Vec::as_slice).collect();
    let folder = self::packets("scan-all", &slices);
    let told = folder.run(&["scan", "bits"]).told();
    assert!(told.contains(", circuits 65535; System 0"));
    let heard: Vec<&str> = told.lines().skip(1).take(3).map(|row| &row[..5]).collect();
    assert_eq!(heard, ["00   ", "00:00", "00:01"], "by who was heard first");
    #[cfg(target_os = "linux")]
    super::long::run(&folder, &["scan", "bits"]);
    let ran = folder.run(&["decode", "bits"]);
    let (first, rest) = ran.err.split_once('\n').unwrap();
    assert_eq!(
        first,
        "listening to 00, 00:00, 00:01, 00:02; not to 00:03 (1 packet), 00:04 (1 packet),"
    );
    assert!(
        rest.ends_with(" and 65523 more (aes18 scan lists them)\n"),
        "{rest}"
    );
}

/// Without --circuits the first four are listened to, in order, from bits and from their line.
#[test]
fn decode_listens_to_the_first_four() {
    let of = |address: u8, number: usize| -> Vec<Vec<u8>> {
        let packet = |index: usize| vec![address, 0x81 | (index as u8 % 8) << 2, 0x01, b'a'];
        (0..number).map(packet).collect()
    };
    let all = [of(5, 1), of(4, 2), of(3, 3), of(2, 3), of(6, 2), of(1, 4)].concat();
    let slices: Vec<&[u8]> = all.iter().map(Vec::as_slice).collect();
    let folder = packets("decode-found", &slices);
    assert_eq!(folder.run(&["line", "bits", "-o", "line"]).status, 0);
    let said = "listening to 01, 03, 02, 04; not to 06 (2 packets), 05 (1 packet)\n";
    for file in [&["bits"][..], &["--line", "line"]] {
        let found = folder.run(&[&["decode"], file].concat());
        assert_eq!((found.status, found.err.as_str()), (0, said));
        let listed = folder.run(&[&["decode", "--circuits=01,03,02,04"], file].concat());
        assert_eq!(String::from_utf8(found.out).unwrap(), listed.told());
        let told = folder.run(&[&["decode", "--json"], file].concat()).told();
        let listening = r#"{"listening":{"not":[{"circuit":"06","packets":2},{"circuit":"05","packets":1}],"to":[{"circuit":"01","packets":4},{"circuit":"03","packets":3},{"circuit":"02","packets":3},{"circuit":"04","packets":2}]}}"#;
        assert_eq!(parse(told.lines().next().unwrap()), parse(listening));
        let listed = folder.run(&[&["decode", "--json", "--circuits=01,03,02,04"], file].concat());
        assert_eq!(told.split_once('\n').unwrap().1, listed.told());
    }
}

/// Where no packet of a circuit passes, the other notices are told.
#[test]
fn decode_without_a_circuit() {
    let folder = packets("decode-none", &[b"\xFF\xCF\x00", b"\xFF\x80segment"]);
    assert_eq!(folder.run(&["line", "bits", "-o", "line"]).status, 0);
    for file in [&["bits"][..], &["--line", "line"]] {
        let ran = folder.run(&[&["decode"], file].concat());
        let said = "listening to no circuit: no packet of one passes\n";
        assert_eq!((ran.status, ran.err.as_str()), (0, said));
        let told = String::from_utf8(ran.out).unwrap();
        assert!(
            told.contains(": System, enable bits 15 (all priorities), code 0, length 0: \"\"\n"),
            "{told}"
        );
        assert!(told.contains(": Malformed\n\nb"), "{told}");
        assert!(!told.contains("circuit"), "{told}");
        let json = folder.run(&[&["decode", "--json"], file].concat()).told();
        assert!(
            json.starts_with("{\"listening\":{\"to\":[],\"not\":[]}}\n"),
            "{json}"
        );
        assert!(json.contains(",\"circuits\":[],"), "{json}");
    }
}

/// Only a file is read twice: a pipe by its name, or a file as the standard input, is not.
#[test]
fn streams_need_circuits() {
    let folder = folder("decode-streams");
    let start = "aes18: expected --circuits ADDR[:EXT],..: only a file can be scanned";
    for subcommand in ["decode", "show"] {
        for (file, status) in [("-", 2), ("/dev/stdin", 2), ("bits", 0)] {
            let mut command = folder.command(&[subcommand, "--quiet", file]);
            command.stdin(match file {
                "/dev/stdin" => std::process::Stdio::null(),
                _ => File::open(folder.path("bits")).unwrap().into(),
            });
            let output = command.output().unwrap();
            let error = String::from_utf8(output.stderr).unwrap();
            assert_eq!(output.status.code(), Some(status), "{error}");
            assert_eq!(error.starts_with(start), status == 2, "{error}");
        }
    }
}
