//! Messages above 4,094 bytes: sent at circuit 0, and told where their circuit is number 0.

use std::fmt::Write;

use serde_json::json;

use super::frames::{bytes_of, framed};
use super::runs::{names, objects, Folder};

/// Lengths of the shortest and of the longest.
const SHORTEST: usize = 4095;
const LONGEST: usize = 65_535;

/// Short and long messages at 02:07, and short ones at 01.
const PLAN: &str = "\
circuits 02:07 01
offer 0 1 0 \"before\"
block 600 600
offer 0 1 0 @shortest
block 27000 27000
offer 1 3 0 \"beside\"
block 27000 27000
offer 0 1 0 \"between\"
block 600 600
offer 0 1 0 @longest
";
const LISTED: &str = "--circuits=02:07,01";
/// The files of the messages, and their lengths.
const FILES: [(&str, usize); 6] = [
    ("000001-02-07.bin", 6),
    ("000002-01.bin", 6),
    ("000003-02-07.bin", SHORTEST),
    ("000004-02-07.bin", 7),
    ("000005-02-07.bin", LONGEST),
    ("000006-02-07.bin", 6),
];

/// A message in which no part is like another.
fn message(length: usize) -> Vec<u8> {
    let byte = |place: u32| (place.wrapping_mul(0x9E37_79B1) >> 24) as u8;
    (0..length as u32).map(byte).collect()
}

fn hex(bytes: &[u8]) -> String {
    bytes.iter().fold(String::new(), |mut digits, byte| {
        write!(digits, "{byte:02X}").unwrap();
        digits
    })
}

/// A folder with the messages and the bits of the plan.
fn folder(name: &str) -> Folder {
    let folder = Folder::new(name);
    folder.write("shortest", message(SHORTEST));
    folder.write("longest", message(LONGEST));
    let blocks = "block 27000 27000\n".repeat(28);
    let behind = "offer 0 1 0 \"behind\"\nblock 600 600\n";
    folder.write("plan", format!("{PLAN}{blocks}{behind}"));
    let ran = folder.run(&["encode", "plan", "-o", "bits"]);
    assert_eq!(ran.status, 0, "{}", ran.err);
    folder
}

/// The frames of packets, as the bits.
fn packets(name: &str, packets: &[&[u8]]) -> Folder {
    let folder = Folder::new(name);
    folder.write("bits", bytes_of(&framed(packets)));
    folder
}

/// A full packet of a long message: its address, link bits and index in front.
fn full(address: u8, control: u8) -> Vec<u8> {
    let segment = match control >> 6 {
        0b10 => [&b"\x1F\xFF"[..], &[b'a'; 14]].concat(),
        _ => vec![b'a'; 16],
    };
    [&[address, control][..], &segment].concat()
}

/// Long and short messages come byte for byte, from the bits and from their line, and nothing is at fault.
#[test]
fn byte_for_byte() {
    let folder = folder("long-messages");
    assert_eq!(folder.run(&["line", "bits", "-o", "line"]).status, 0);
    for (out, file) in [("out", &["bits"][..]), ("from-line", &["--line", "line"])] {
        let arguments = ["decode", "--strict", LISTED, "--messages", out];
        let told = folder.run(&[&arguments, file].concat()).told();
        let rows = [
            "circuit                 02:07               01\n",
            "packets                  4357                1\n",
            "lost                        0                0\n",
            "begun                       2                0\n",
            "held                     4350                0\n",
            "messages                    5                1\n",
            "bytes                   69649                6\n",
            "dropped                     0                0\n",
        ];
        assert!(rows.iter().all(|row| told.contains(row)), "{told}");
        assert_eq!(
            names(&folder.path(out)),
            FILES.map(|(name, _)| name.to_string())
        );
        for (name, length) in FILES {
            let written = folder.read(&format!("{out}/{name}"));
            assert_eq!(written.len(), length, "{name}");
            if length >= SHORTEST {
                assert!(written == message(length), "{name}");
            }
        }
        let line = format!(
            ": 02:07, loss 0, Whole, length 65535: {}, file 000005-02-07.bin\n",
            hex(&message(LONGEST))
        );
        assert!(told.contains(&line));
    }
}

#[test]
fn json_and_text() {
    let folder = folder("long-json");
    let told = folder.run(&["decode", "--json", LISTED, "bits"]).told();
    let notices = objects(&told);
    let whole = |length: usize| {
        let found = notices.iter().find(|notice| notice["length"] == length);
        found.unwrap().clone()
    };
    for length in [SHORTEST, LONGEST] {
        let notice = whole(length);
        assert_eq!(notice["fate"], "Whole");
        assert_eq!(notice["hex"], hex(&message(length)));
    }
    assert_eq!(notices.last().unwrap()["totals"]["open"], json!([]));

    let text = "0123456789\n".repeat(400);
    folder.write("text", &text);
    let plan = "circuits 01\noffer 0 0 0 @text\nblock 27000 27000\nblock 27000 27000\n";
    folder.write("plan", plan);
    assert_eq!(folder.run(&["encode", "plan", "-o", "bits"]).status, 0);
    let told = folder
        .run(&["decode", "--json", "--circuits=01", "bits"])
        .told();
    assert!(objects(&told).iter().any(|notice| notice["text"] == text));
    let told = folder.run(&["decode", "--circuits=01", "bits"]).told();
    let quoted = format!("length 4400: \"{}\"\n", "0123456789\\n".repeat(400));
    assert!(told.contains(&quoted), "{told}");
}

#[test]
fn shown() {
    let folder = folder("long-show");
    let told = folder.run(&["show", "--strict", LISTED, "bits"]).told();
    for part in [
        "\n0  circuit 0 (02:07)\n1  circuit 1 (01)\n",
        "\nbytes                   69649                6\n",
        "\nNo place went wrong.\n",
    ] {
        assert!(told.contains(part), "{told}");
    }
    let svg = ["show", "--strict", LISTED, "--svg=picture", "bits"];
    assert_eq!(folder.run(&svg).status, 0);
    let picture = String::from_utf8(folder.read("picture")).unwrap();
    assert!(picture.contains(": 02:07, loss 0, Whole, length 65535; "));
}

/// At another number than 0 they are not taken, and short ones are.
#[test]
fn at_another_number() {
    let folder = folder("long-elsewhere");
    let ran = folder.run(&["decode", "--strict", "--circuits=01,02:07", "bits"]);
    let told = String::from_utf8(ran.out).unwrap();
    for row in [
        "circuit                    01            02:07\n",
        "messages                    1                3\n",
        "bytes                       6               19\n",
        "orphans                     0             4352\n",
        "wrong                       0                2\n",
    ] {
        assert!(told.contains(row), "{told}");
    }
    let faults = "aes18: bits: --strict: 4352 packets orphaned, 2 packets wrong\n";
    assert_eq!((ran.status, ran.err.as_str()), (3, faults));
}

/// A long message of which packets are lost is dropped; one that the file ends in is open, of at most as many bytes as one may have.
#[test]
fn torn() {
    let folder = folder("long-torn");
    let mut bits = folder.read("bits");
    bits[3000..3100].fill(0);
    bits.truncate(60_000);
    folder.write("torn", &bits);
    let ran = folder.run(&["decode", "--strict", LISTED, "torn"]);
    let told = String::from_utf8(ran.out).unwrap();
    let (_, end) = told.split_at(told.find("\n\n").unwrap());
    for row in [
        "lost                        5                0\n",
        "messages                    2                1\n",
        "bytes                      13                6\n",
        "dropped                     1                0\n",
        "orphans                   121                0\n",
    ] {
        assert!(end.contains(row), "{end}");
    }
    let dropped = ": 02:07, loss 5 modulo 8 (882 bits in no frame), message dropped, Orphan\n";
    assert_eq!(told.matches(dropped).count(), 1);
    let open = "02:07: open at the end, 38014 of at most 65535 bytes, begun by the frame";
    let line = format!("\n{open} before\n  bit 55387\n");
    assert!(end.contains(&line), "{end}");
    let faults = "aes18: torn: --strict: 5 packets lost, 1 frame spoilt, 121 packets orphaned, \
        1 message dropped, 1 message open at the end, 1 place known only modulo 8, \
        882 bits in no frame\n";
    assert_eq!((ran.status, ran.err.as_str()), (3, faults));

    let json = folder.run(&["decode", "--json", LISTED, "torn"]).told();
    let totals = &objects(&json).pop().unwrap()["totals"];
    let object = json!([
        {"number": 0, "circuit": "02:07", "received": 38014, "at_most": 65535, "bit": 55387}
    ]);
    assert_eq!(totals["open"], object);
    let told = folder.run(&["show", LISTED, "torn"]).told();
    let (_, end) = told.split_at(told.find("places went wrong").unwrap());
    assert!(end.contains(", message dropped, Orphan\n"), "{end}");
    assert!(
        end.contains(&format!("\n  {open}\n    before bit 55387\n")),
        "{end}"
    );
}

/// What ends a long message that is not whole: a message of one packet, a last packet too early, another long one.
#[test]
fn dropped() {
    let folder = packets(
        "long-dropped",
        &[
            &full(1, 0x80),
            &full(1, 0x04),
            b"\x01\x88\x02hi",
            &full(1, 0x8C),
            &full(1, 0x50),
            &full(1, 0x94),
            &full(1, 0x98),
        ],
    );
    let told = folder.run(&["decode", "--circuits=01", "bits"]).told();
    let fates: Vec<&str> = told
        .lines()
        .map_while(|line| line.split_once(": 01, "))
        .map(|(_, fate)| fate)
        .collect();
    assert_eq!(
        fates,
        [
            "loss 0, Begun",
            "loss 0, Held",
            "loss 0, message dropped, Whole, length 2: \"hi\"",
            "loss 0, Begun",
            "loss 0, message dropped, Wrong",
            "loss 0, Begun",
            "loss 0, message dropped, Begun",
        ]
    );
    assert!(told.contains("\n01: open at the end, 14 of at most 65535 bytes, "));
}

/// A circuit that sends long messages is found, and is number 0 though another has more packets.
#[test]
fn found() {
    let folder = folder("long-found");
    let plan = "circuits 03 02:07\n".to_string();
    let more = "offer 0 0 0 @more\nblock 27000 27000\nblock 27000 27000\n".repeat(18);
    folder.write("more", message(4094));
    folder.write("plan-more", plan + &more);
    let ran = folder.run(&["encode", "plan-more", "-o", "more-bits"]);
    assert_eq!(ran.status, 0, "{}", ran.err);
    let both = [folder.read("bits"), folder.read("more-bits")].concat();
    folder.write("bits", both);
    assert_eq!(folder.run(&["line", "bits", "-o", "line"]).status, 0);
    let scan = folder.run(&["scan", "bits"]).told();
    let first = scan.lines().nth(1).unwrap();
    assert!(first.starts_with("03            4608 "), "{scan}");
    let said = "listening to 02:07, 03, 01\n";
    for file in [&["bits"][..], &["--line", "line"]] {
        let found = folder.run(&[&["decode", "--strict"], file].concat());
        assert_eq!((found.status, found.err.as_str()), (0, said));
        let listed = folder.run(&[&["decode", "--circuits=02:07,03,01"], file].concat());
        let told = listed.told();
        assert!(told.contains(", Whole, length 65535: "));
        assert_eq!(String::from_utf8(found.out).unwrap(), told);
    }
    let told = folder.run(&["show", "bits"]).told();
    assert!(told.starts_with(said), "{told}");
}

/// It comes before all others however few its packets are; of several it is the one with most packets, or else that heard first.
#[test]
fn found_among_many() {
    let of = |address: u8, number: u8| -> Vec<Vec<u8>> {
        let packet = |index: u8| vec![address, 0x81 | (index % 8) << 2, 0x01, b'a'];
        (0..number).map(packet).collect()
    };
    let long = |address| vec![full(address, 0x80)];
    let others = [of(1, 5), of(2, 4), of(3, 3), of(4, 2)].concat();
    for (name, longs, said) in [
        ("one", long(9), "09, 01, 02, 03; not to 04 (2 packets)\n"),
        (
            "first",
            [long(9), long(8)].concat(),
            "09, 01, 02, 03; not to 04 (2 packets), 08 (1 packet)\n",
        ),
        (
            "most",
            [long(9), long(8), vec![full(8, 0x04)]].concat(),
            "08, 01, 02, 03; not to 04 (2 packets), 09 (1 packet)\n",
        ),
        (
            "listed",
            [long(9), vec![full(3, 0x8C)]].concat(),
            "03, 01, 02, 04; not to 09 (1 packet)\n",
        ),
    ] {
        let all = [&others[..], &longs].concat();
        let slices: Vec<&[u8]> = all.iter().map(Vec::as_slice).collect();
        let folder = packets(&format!("long-found-{name}"), &slices);
        let ran = folder.run(&["decode", "bits"]);
        assert_eq!((ran.status, ran.err), (0, format!("listening to {said}")));
        let told = folder.run(&["decode", "--json", "bits"]).told();
        let to = &objects(&told)[0]["listening"]["to"];
        let circuit = |number: usize| to[number]["circuit"].as_str().unwrap();
        let order = [0, 1, 2, 3].map(circuit).join(", ");
        assert!(said.starts_with(&order), "{told}");
    }
}

/// Only circuit 0 takes them, up to the longest, and one at a time.
#[test]
fn refused() {
    let folder = Folder::new("long-refused");
    folder.write("shortest", message(SHORTEST));
    folder.write("longest", message(LONGEST));
    folder.write("longer", message(LONGEST + 1));
    let only = "refusal 9: message above 4,094 bytes; only circuit 0 takes longer ones, up to 65,535 bytes";
    let none = "refusal 18: length outside 4,095 to 65,535 bytes; no circuit takes a longer one";
    for (offers, message) in [
        ("offer 1 0 0 @shortest\n", only),
        ("offer 1 0 0 @longer\n", only),
        ("offer 2 0 0 @longest\n", "refusal 6: circuit number not listed"),
        ("offer 0 0 0 @longer\n", none),
        ("offer 0 4 0 @longer\n", "refusal 7: priority above 3"),
        ("offer 0 0 6 @longer\n", "refusal 8: repetition above 5"),
        (
            "offer 0 1 0 @longest\noffer 0 2 0 @shortest\n",
            "refusal 10: an earlier message there still has a copy to place, 4097 packets of it still to go",
        ),
        (
            "offer 0 1 0 @longest\nblock 256 256 system 8 0\noffer 0 2 0 -\n",
            "refusal 10: an earlier message there still has a copy to place, 4097 packets of it still to go; its priority 1 is not enabled until another system packet enables it",
        ),
    ] {
        folder.write("plan", format!("circuits 01 02\n{offers}"));
        let line = 1 + offers.lines().count();
        let ran = folder.run(&["encode", "plan", "-o", "bits"]);
        ran.failed(1, &format!("plan:{line}: {message}\n"));
    }
    assert_eq!(folder.names(), ["longer", "longest", "plan", "shortest"]);
}

/// Many are told with constant memory. Each has a multiple of eight packets, so that the index goes on where the pass is repeated.
#[cfg(target_os = "linux")]
#[test]
fn many_take_little_memory() {
    let folder = Folder::new("long-many");
    folder.write("message", message(65_534));
    let blocks = "block 27000 27000\n".repeat(26);
    let plan = format!("circuits 01\noffer 0 0 0 @message\n{blocks}");
    folder.write("plan", plan);
    assert_eq!(folder.run(&["encode", "plan", "-o", "pass"]).status, 0);
    folder.write("bits", folder.read("pass").repeat(160));
    let (end, err) = super::long::run(&folder, &["decode", "--circuits=01", "bits"]);
    let end = String::from_utf8(end).unwrap();
    for row in [
        "lost                        0\n",
        "messages                  160\n",
        "bytes                10485440\n",
        "dropped                     0\n",
    ] {
        assert!(end.contains(row), "{end}");
    }
    assert_eq!(err, "");
}
