//! Packets still to go: what `aes18 encode` says of them behind each block, at the end of a plan and in the refusal of an offer.

use super::runs::Folder;

/// A block that has room for one frame of 16 message bytes and not for a second.
const ONE_FRAME: &str = "block 256 256\n";

/// What is told of a plan that is made. The file `long` has 46 bytes: with the two of the header three packets, each of them full.
fn told(name: &str, plan: &str) -> String {
    let folder = Folder::new(name);
    folder.write("long", [0; 46]);
    folder.write("plan", plan);
    let ran = folder.run(&["encode", "plan", "-o", "bits"]);
    assert_eq!(ran.status, 0, "{}", ran.err);
    ran.err
}

/// What the lines of the blocks end with: all behind the stuffed zeros.
fn behind_blocks(told: &str) -> Vec<&str> {
    let lines = told.lines().filter(|line| line.contains(": block "));
    lines
        .map(|line| line.split_once(" stuffed zero").unwrap().1)
        .map(|behind| behind.trim_start_matches('s'))
        .collect()
}

/// A packet counts until its last copy is placed, whatever the repetition. Where nothing is still to go the line says nothing of it.
#[test]
fn a_packet_counts_until_its_last_copy() {
    for repetition in 0..=5 {
        let copies = repetition + 1;
        let blocks = ONE_FRAME.repeat(3 * copies);
        let plan = format!("circuits 01\noffer 0 2 {repetition} @long\n{blocks}");
        let told = told("copies", &plan);
        assert_eq!(told.matches(": 1 frame placed, ").count(), 3 * copies);
        let behind = |placed| match 3 - placed / copies {
            0 => String::new(),
            left => format!(", packets still to go: {left} at 01"),
        };
        let expected: Vec<String> = (1..=3 * copies).map(behind).collect();
        assert_eq!(behind_blocks(&told), expected, "repetition {repetition}");
        assert!(!told.contains("warning"), "{told}");
    }
}

/// Circuits are named in the order of their list, with their extensions; those with nothing still to go are left out.
#[test]
fn several_circuits() {
    let plan = format!(
        "circuits 7E 02:00 02 01\noffer 3 1 0 @long\noffer 0 2 0 @long\n{ONE_FRAME}\
        offer 1 3 1 @long\n{ONE_FRAME}{ONE_FRAME}block 27000 27000\n\
        offer 2 0 0 -\noffer 3 0 5 \"charge 71%\"\nblock 256 256 system 8 0\nblock 512 512 system 15 0\nblock 2000 2000\n"
    );
    let told = told("several", &plan);
    assert_eq!(
        behind_blocks(&told),
        [
            ", packets still to go: 2 at 7E, 3 at 01",
            ", packets still to go: 2 at 7E, 3 at 02:00, 3 at 01",
            ", packets still to go: 2 at 7E, 2 at 02:00, 3 at 01",
            "",
            ", enable bits in force 8 (priority 3), packets still to go: 1 at 02, 1 at 01",
            ", packets still to go: 1 at 01",
            "",
        ]
    );
    assert!(!told.contains("warning"), "{told}");
}

/// At the end the packets of an offer behind the last block are still to go, from one of a message without bytes to 4,097 of the longest.
#[test]
fn messages_of_any_length() {
    let folder = Folder::new("lengths");
    folder.write("plan", "circuits 01\noffer 0 0 3 @message\n");
    for (length, packets) in [
        (0, "1 packet"),
        (15, "1 packet"),
        (16, "2 packets"),
        (30, "2 packets"),
        (31, "3 packets"),
        (4078, "255 packets"),
        (4079, "256 packets"),
        (4094, "256 packets"),
        (4095, "257 packets"),
        (4110, "257 packets"),
        (4111, "258 packets"),
        (65_534, "4096 packets"),
        (65_535, "4097 packets"),
    ] {
        folder.write("message", vec![0; length]);
        let ran = folder.run(&["encode", "plan", "-o", "bits"]);
        let said = format!(
            "0 blocks, 0 bits; enable bits in force 15 (all priorities)\n\
            aes18: warning: circuit 0 (01): {packets} still to go in a later block\n"
        );
        assert_eq!((ran.status, ran.err), (0, said), "{length} bytes");
    }
}

/// The refusal of an offer says how many packets of the earlier message at its circuit are still to go; where that is held back the reason follows.
#[test]
fn offers_refused() {
    let folder = Folder::new("left-refused");
    folder.write("long", [0; 46]);
    let pending = "refusal 10: an earlier message there still has a copy to place";
    let held = "; its priority 2 is not enabled until another system packet enables it";
    for (blocks, system, packets, why) in [
        (0, "", "3 packets", ""),
        (1, "", "3 packets", ""),
        (2, "", "2 packets", ""),
        (5, "", "1 packet", ""),
        (2, "block 256 256 system 11 0", "2 packets", held),
    ] {
        let blocks = ONE_FRAME.repeat(blocks) + system;
        let plan = format!("circuits 01 02\noffer 0 0 0 -\noffer 1 2 1 @long\n{blocks}\n");
        folder.write("plan", format!("{plan}offer 1 3 0 \"more\"\n"));
        let line = plan.lines().count() + 1;
        let message = format!("plan:{line}: {pending}, {packets} of it still to go{why}\n");
        let ran = folder.run(&["encode", "plan", "-o", "bits"]);
        ran.failed(1, &message);
    }
}
