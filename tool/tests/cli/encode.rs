//! `aes18 encode`: plans, and what is wrong with them.

use std::fs;

use super::runs::Folder;

/// A plan, and the bytes of the three blocks that the specification gives for it.
pub const PLAN: &str = r#"
# A pass with three circuits.
circuits 01 02:07 7E
offer 0 1 0 "charge 71%"
offer 1 1 1 0001020304050607 08090A0B0C0D0E0F 1011121314151617 18191A1B1C1D1E1F 2021222324252627
offer 2 3 2 FFFFFFFFFFFFFFFFFFFFFFFFFFFFFFFFFFFFFFFF   # priority 3, three copies of each packet

block 600 590
block 600 600
block 605 605 system 5 8 010203
"#;
const BLOCKS: [&str; 3] = [
    "7ebe062128beeffbbeeffbbeeffbbeeffbbeeffbbeef73887ebe062128beeffbbeeffbbeeffbbeeffbbeeffbbeef73887ebe062128beeffbbeeffbbeeffbbeeffbbeeffbbeef73887effff",
    "7ebe8ebeeffbbeeffbbec303fbf93afabeeffbbeeffb0e0fece7ebe8fbbeeffbbeef3b3cb05f40a0c2185a98dc5919c84d4cc96389dfffffffffffffffffffffffffffffffffffffffffff",
    "7edf8b07030406a469fcfeffffffffffffffffffffffffffffffffffffffffffffffffffffffffffffffffffffffffffffffffffffffffffffffffffffffffffffffffffffffffffffffff1f",
];
const SUMMARY: &str = "\
plan:8: block 0: 3 frames placed, 584 of 600 bits used, 72 of them stuffed zeros, packets still to go: 1 at 01, 3 at 02:07, 1 at 7E
plan:9: block 1: 4 frames placed, 430 of 600 bits used, 30 of them stuffed zeros, packets still to go: 3 at 02:07
plan:10: block 2: 0 frames placed, 81 of 605 bits used, 1 of them a stuffed zero, enable bits in force 5 (priorities 0 and 2), packets still to go: 3 at 02:07
3 blocks, 1805 bits, 1095 used, 103 of them stuffed zeros (9.4 %); enable bits in force 5 (priorities 0 and 2)
aes18: warning: circuit 1 (02:07): 3 packets still to go: priority 1 is not enabled until another system packet enables it
";

fn hex(bytes: &[u8]) -> String {
    bytes.iter().map(|byte| format!("{byte:02x}")).collect()
}

#[test]
fn blocks_of_the_specification() {
    let folder = Folder::new("blocks");
    folder.write("plan", PLAN);
    let ran = folder.run(&["encode", "plan", "-o", "bits"]);
    assert_eq!((ran.status, ran.err.as_str()), (0, SUMMARY));
    assert_eq!(hex(&folder.read("bits")), BLOCKS.concat());
    assert_eq!(folder.names(), ["bits", "plan"]);
}

#[test]
fn standard_input_and_output() {
    let folder = Folder::new("streams");
    let ran = folder.run_with(&["encode", "-", "--output=-"], PLAN.as_bytes());
    assert_eq!((ran.status, hex(&ran.out)), (0, BLOCKS.concat()));
    assert_eq!(ran.err, SUMMARY.replace("plan:", "standard input:"));
    assert_eq!(folder.names(), [""; 0]);
}

/// Blocks of 257 bits: each begins one bit further in its byte, and 0 bits fill the last byte.
#[test]
fn odd_blocks_are_joined_bit_by_bit() {
    let folder = Folder::new("odd");
    folder.write(
        "plan",
        format!("circuits 01\n{}", "block 257 256\n".repeat(9)),
    );
    assert_eq!(folder.run(&["encode", "plan", "-o", "bits"]).status, 0);
    let mut bits = Vec::new();
    for byte in folder.read("bits") {
        bits.extend((0..8).map(|k| byte >> k & 1));
    }
    let block = [&[0, 1, 1, 1, 1, 1, 1, 0][..], &[1; 249]].concat();
    let spare = [0; 7];
    assert_eq!(bits, [&block.repeat(9)[..], &spare].concat());
}

/// Enable bits rule their own block and all later ones: what has priority 3 waits until another system packet enables it, and the blocks before that
/// are as if it had not been offered.
#[test]
fn enable_bits_hold_over() {
    let folder = Folder::new("hold-over");
    let switch = "offer 0 3 0 \"switch on\"\n";
    let others = "offer 1 1 0 \"charge 71%\"\nblock 304 304 system 7 1\n\
        offer 1 2 0 \"charge 72%\"\nblock 304 304\nblock 304 304\n";
    let plan = format!("circuits 01 02\n{switch}{others}block 304 304 system 15 1\n");
    folder.write("plan", plan);
    folder.write("without", format!("circuits 01 02\n{others}"));
    let ran = folder.run(&["encode", "plan", "-o", "bits"]);
    let summary = "\
plan:4: block 0: 1 frame placed, 186 of 304 bits used, 2 of them stuffed zeros, enable bits in force 7 (priorities 0, 1 and 2), packets still to go: 1 at 01
plan:6: block 1: 1 frame placed, 136 of 304 bits used, 0 of them stuffed zeros, enable bits in force 7 (priorities 0, 1 and 2), packets still to go: 1 at 01
plan:7: block 2: 0 frames placed, 8 of 304 bits used, 0 of them stuffed zeros, enable bits in force 7 (priorities 0, 1 and 2), packets still to go: 1 at 01
plan:8: block 3: 1 frame placed, 180 of 304 bits used, 4 of them stuffed zeros
4 blocks, 1216 bits, 510 used, 6 of them stuffed zeros (1.2 %); enable bits in force 15 (all priorities)
";
    assert_eq!((ran.status, ran.err.as_str()), (0, summary));
    let told = folder.run(&["decode", "--circuits=01,02", "bits"]).told();
    let notices = "\
bit 58: System, enable bits 7 (priorities 0, 1 and 2), code 1, length 0: \"\"
bit 186: 02, loss 0, Whole, length 10: \"charge 71%\"
bit 440: 02, loss 0, Whole, length 10: \"charge 72%\"
bit 970: System, enable bits 15 (all priorities), code 1, length 0: \"\"
bit 1092: 01, loss 0, Whole, length 9: \"switch on\"

";
    assert!(told.starts_with(notices), "{told}");
    let ran = folder.run(&["encode", "without", "-o", "bits-without"]);
    assert_eq!(ran.status, 0, "{}", ran.err);
    assert_eq!(folder.read("bits")[..114], folder.read("bits-without"));
}

/// What is not placed at a plan's end is named, with the reason: no room so far, or a priority that is not enabled.
#[test]
fn messages_held_back_at_the_end() {
    let folder = Folder::new("held-back");
    let plan = "circuits 01 02 03:07\noffer 0 3 0 \"switch on\"\noffer 1 1 2 \"charge 71%\"\n\
        offer 2 0 0 @long\nblock 304 304 system 1 0\n";
    let later = "block 304 304 system 0 0\nblock 27000 27000\n";
    folder.write("long", [0; 32]);
    folder.write("plan", plan);
    folder.write("longer", format!("{plan}{later}"));
    let held = |circuit, packets, priority| {
        format!("aes18: warning: circuit {circuit}: {packets} still to go: priority {priority} is not enabled until another system packet enables it\n")
    };
    let others = held("0 (01)", "1 packet", 3) + &held("1 (02)", "1 packet", 1);
    let ran = folder.run(&["encode", "plan", "-o", "bits"]);
    let room = "aes18: warning: circuit 2 (03:07): 2 packets still to go in a later block\n";
    let sums = "\n1 block, 304 bits, 233 used, 1 of them a stuffed zero (0.4 %); enable bits in force 1 (priority 0)\n";
    assert_eq!(ran.status, 0);
    assert!(
        ran.err.ends_with(&format!("{sums}{others}{room}")),
        "{}",
        ran.err
    );
    let ran = folder.run(&["encode", "longer", "-o", "bits"]);
    let last = held("2 (03:07)", "2 packets", 0);
    let sums = "\
longer:7: block 2: 0 frames placed, 8 of 27000 bits used, 0 of them stuffed zeros, enable bits in force 0 (no priority), packets still to go: 1 at 01, 1 at 02, 2 at 03:07
3 blocks, 27608 bits, 298 used, 2 of them stuffed zeros (0.7 %); enable bits in force 0 (no priority)
";
    assert_eq!(ran.status, 0);
    assert!(
        ran.err.ends_with(&format!("{sums}{others}{last}")),
        "{}",
        ran.err
    );
}

/// Every form of a message comes back from a receiver as it is.
#[test]
fn forms_of_messages() {
    let folder = Folder::new("forms");
    fs::create_dir(folder.path("plans")).unwrap();
    folder.write("plans/long file", [0x7E; 4094]);
    folder.write("plans/short", "short");
    folder.write(
        "plans/plan",
        "circuits 0x1, 2:0x7 3 4:FF\r\n\
         \toffer 0 3 0 \"\\\"\\\\\\n\\t\\xfF # \u{b0}C\"\r\n\
         offer 0x1 3 0 - # no bytes\n\
         offer 2 3 0 @short\n\
         offer 3 0 0 @\"long file\"\n\
         block 27000 27000\n\
         block 27000 27000 system 0xF 0\n\
         offer 1 3 0 00 Ff7e",
    );
    folder.run(&["encode", "plans/plan", "-o", "bits"]);
    let ran = folder.run(&[
        "decode",
        "--circuits",
        "01 02:07 03 04:ff",
        "--messages",
        "out",
        "bits",
    ]);
    assert_eq!(ran.status, 0);
    let messages = [
        ("out/000001-01.bin", "\"\\\n\t\u{fffd} # \u{b0}C"),
        ("out/000002-02-07.bin", ""),
        ("out/000003-03.bin", "short"),
        ("out/000004-04-FF.bin", &"~".repeat(4094)),
    ];
    for (name, message) in messages {
        assert_eq!(
            String::from_utf8_lossy(&folder.read(name)),
            message,
            "{name}"
        );
    }
}

/// Tries plans that are wrong, each with the line and the message expected. Nothing is written, and what stood there stays.
fn try_wrong(name: &str, cases: &[(&str, usize, &str)]) {
    let folder = Folder::new(name);
    folder.write("long", [0; 4095]);
    folder.write("bits", "as before");
    for (plan, line, message) in cases {
        folder.write("plan", plan);
        let message = format!("plan:{line}: {message}\n");
        for bits in ["bits", "new", "-"] {
            let arguments = ["encode", "plan", "-o", bits];
            folder.run(&arguments).failed(1, &message);
        }
    }
    assert_eq!(folder.read("bits"), b"as before");
    assert_eq!(folder.names(), ["bits", "long", "plan"]);
}

#[test]
fn lines_that_are_no_calls() {
    const CIRCUIT: &str =
        "expected a circuit ADDR or ADDR:EXT, each one or two hex digits, such as 01 or 02:07";
    const LINE: &str =
        "expected circuits ADDR[:EXT] .., offer CIRCUIT PRIORITY REPETITION MESSAGE \
        or block N U [system ENABLE CODE [INFORMATION]]";
    let twice = "expected one line 'circuits', not a second";
    try_wrong(
        "lines",
        &[
            ("block 256 256", 1, "expected first circuits ADDR[:EXT] .."),
            ("circuits 1\ncircuits 2", 2, twice),
            ("circuits", 1, CIRCUIT),
            ("circuits 1 2x", 1, &format!("{CIRCUIT}, not '2x'")),
            ("circuits \"01\"", 1, "expected circuits ADDR[:EXT] .."),
            ("circuits 1\n\nsend", 3, LINE),
            ("circuits 1\n\"offer\"", 2, LINE),
        ],
    );
}

#[test]
fn offers_that_are_badly_written() {
    const BYTES: &str = r#"expected hex digits in pairs, "text", @file or -"#;
    let offer = "expected offer CIRCUIT PRIORITY REPETITION MESSAGE";
    let escape = r#"expected \", \\, \n, \t or \xHH behind a \"#;
    let none = "expected a file that can be read: none: No such file or directory (os error 2)";
    try_wrong(
        "offers",
        &[
            ("circuits 1\noffer 0 0", 2, offer),
            ("circuits 1\noffer 0 0 0", 2, BYTES),
            ("circuits 1\noffer 0 0 0 012", 2, BYTES),
            ("circuits 1\noffer 0 0 0 01 \"a\"", 2, BYTES),
            ("circuits 1\noffer 0 0 0 \"a", 2, "expected a closing \""),
            ("circuits 1\noffer 0 0 0 \"\\q\"", 2, escape),
            ("circuits 1\noffer 0 0 0 @none", 2, none),
            (
                "circuits 1\noffer x 0 0 -",
                2,
                "expected CIRCUIT, a number, not 'x'",
            ),
            (
                "circuits 1\noffer 0 +1 0 -",
                2,
                "expected PRIORITY, a number, not '+1'",
            ),
            (
                "circuits 1\noffer 0 0 \"1\" -",
                2,
                "expected REPETITION, a number",
            ),
        ],
    );
}

#[test]
fn blocks_that_are_badly_written() {
    let block = "expected block N U [system ENABLE CODE [INFORMATION]]";
    try_wrong(
        "badly",
        &[
            ("circuits 1\nblock 256", 2, block),
            ("circuits 1\nblock 256 256 256", 2, block),
            ("circuits 1\nblock 256 256 system 1", 2, block),
            (
                "circuits 1\nblock - 256",
                2,
                "expected N, a number, not '-'",
            ),
            (
                "circuits 1\nblock 256 0x",
                2,
                "expected U, a number, not '0x'",
            ),
        ],
    );
}

#[test]
fn refused_calls() {
    let system_address = "expected an address from 00 to FE, not FF: FF is that of system packets";
    let pending = "refusal 10: an earlier message there still has a copy to place, 1 packet of it still to go";
    let bits = "refusal 11: N outside 256 to 27,000 or U outside 256 to N";
    let system = "refusal 13: enable bits above 15, code above 8 or information above 15 bytes";
    try_wrong(
        "refusals",
        &[
            (
                "circuits 1 2 3 4 5",
                1,
                "expected one to four circuits, not 5",
            ),
            ("\n\ncircuits FF", 3, system_address),
            ("circuits 1 01", 1, "01 is listed twice"),
            (
                "circuits 1\noffer 1 0 0 -",
                2,
                "refusal 6: circuit number not listed",
            ),
            (
                "circuits 1\noffer 0 4 0 -",
                2,
                "refusal 7: priority above 3",
            ),
            (
                "circuits 1\noffer 0 0 6 -",
                2,
                "refusal 8: repetition above 5",
            ),
            ("circuits 1\noffer 0 0 0 -\noffer 0 0 0 -", 3, pending),
            ("circuits 1\nblock 255 255", 2, bits),
            ("circuits 1\nblock 256 256\nblock 99999999999 256", 3, bits),
            ("circuits 1\nblock 256 256 system 16 0", 2, system),
            ("circuits 1\nblock 256 256 system 0 9 -", 2, system),
            ("circuits 1\nblock 256 256 system 0 0 @long", 2, system),
        ],
    );
}

/// An offer behind a message that is held back is refused with the reason, and no other is.
#[test]
fn offers_behind_a_message_held_back() {
    let pending = "refusal 10: an earlier message there still has a copy to place, 1 packet of it still to go";
    let held = "priority 3 is not enabled until another system packet enables it";
    let offer = "circuits 1 2\noffer 0 3 0 -\nblock 256 256 system 7 0\nblock 256 256\n";
    let again = |number, priority| format!("{offer}offer {number} {priority} 0 -\n");
    try_wrong(
        "offers-held-back",
        &[
            (&again(0, 0), 5, &format!("{pending}; its {held}")),
            (&again(0, 4), 5, "refusal 7: priority above 3"),
            (&again(2, 3), 5, "refusal 6: circuit number not listed"),
            (&again(4, 3), 5, "refusal 6: circuit number not listed"),
            (&(again(1, 2) + "offer 1 3 0 -"), 6, pending),
            (
                &(again(1, 3) + "offer 1 2 0 -"),
                6,
                &format!("{pending}; its {held}"),
            ),
        ],
    );
}

#[test]
fn a_plan_of_nothing() {
    let folder = Folder::new("nothing");
    folder.write("plan", "# nothing\n");
    let message = "aes18: plan: expected circuits ADDR[:EXT] ..\n";
    folder
        .run(&["encode", "plan", "-o", "bits"])
        .failed(1, message);
    assert_eq!(folder.names(), ["plan"]);
}

#[test]
fn a_plan_that_is_no_text() {
    let folder = Folder::new("no-text");
    folder.write("plan", b"circuits 01\n\xFF\n");
    let message = "plan:2: expected text in UTF-8\n";
    folder
        .run(&["encode", "plan", "-o", "bits"])
        .failed(1, message);
}

#[test]
fn files_that_cannot_be_used() {
    let folder = Folder::new("unusable");
    folder.write("plan", PLAN);
    fs::create_dir(folder.path("folder")).unwrap();
    let none = "No such file or directory (os error 2)";
    let cases = [
        ("none", "bits", format!("none: {none}")),
        (
            "folder",
            "bits",
            "folder: expected a file, not a folder".to_string(),
        ),
        (
            "plan",
            "folder",
            "folder: expected a file, not a folder".to_string(),
        ),
        ("plan", "none/bits", format!("none/bits: {none}")),
        (
            "plan",
            "none/..",
            "none/..: expected a file's name".to_string(),
        ),
    ];
    for (plan, bits, message) in cases {
        let message = format!("aes18: {message}\n");
        folder
            .run(&["encode", plan, "-o", bits])
            .failed(1, &message);
    }
    assert_eq!(folder.names(), ["folder", "plan"]);
}

/// A link stays, and the file that it leads to is replaced; a device is written to and stays.
#[cfg(unix)]
#[test]
fn links_and_devices() {
    let folder = Folder::new("links");
    folder.write("plan", PLAN);
    folder.write("old", "as before");
    std::os::unix::fs::symlink("old", folder.path("link")).unwrap();
    assert_eq!(folder.run(&["encode", "plan", "-o", "link"]).status, 0);
    assert_eq!(hex(&folder.read("old")), BLOCKS.concat());
    assert_eq!(folder.names(), ["link", "old", "plan"]);
    let ran = folder.run(&["encode", "plan", "-o", "/dev/stdout"]);
    assert_eq!(hex(&ran.out), BLOCKS.concat());
}
