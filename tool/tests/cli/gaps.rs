//! Bits in no frame: told by decode and show, judged by `--strict`, and what they leave unknown.

use std::io::{BufRead, BufReader, Write};
use std::process::Stdio;

use super::frames::{bits_of, bytes_of, framed};
use super::runs::{objects, Folder};

/// Forty messages of one packet in blocks of 256 bits, as `bits`; answers their bytes.
fn forty(folder: &Folder) -> Vec<u8> {
    let offers: String = (0..40)
        .map(|number| format!("offer 0 0 0 \"charge {number:02}\"\nblock 256 256\n"))
        .collect();
    folder.write("plan", format!("circuits 01\n{offers}"));
    assert_eq!(folder.run(&["encode", "plan", "-o", "bits"]).status, 0);
    folder.read("bits")
}

/// The forty messages with so many blocks from block 20 on replaced by that byte, as `torn`.
fn torn(name: &str, blocks: usize, byte: u8) -> Folder {
    let folder = Folder::new(name);
    let mut bits = forty(&folder);
    bits[20 * 32..(20 + blocks) * 32].fill(byte);
    folder.write("torn", &bits);
    folder
}

/// What decode tells of bits with these options; the exit status has to be that of `--strict`, and else nothing changes with it.
fn decoded(folder: &Folder, options: &[&str], strict: i32) -> String {
    let arguments = [&["decode", "--circuits=01", "torn"], options].concat();
    let told = folder.run(&arguments).told();
    let ran = folder.run(&[&arguments[..], &["--strict"]].concat());
    assert_eq!(String::from_utf8(ran.out).unwrap(), told);
    assert_eq!(
        (ran.status, ran.err.is_empty()),
        (strict, strict == 0),
        "{}",
        ran.err
    );
    told
}

/// The same of bits, one in each place.
fn decoded_bits(folder: &Folder, bits: &[bool], options: &[&str], strict: i32) -> String {
    folder.write("torn", bytes_of(bits));
    decoded(folder, options, strict)
}

/// What is said of the forty messages as they are.
#[test]
fn nothing_in_no_frame() {
    let folder = Folder::new("gaps-none");
    let bits = forty(&folder);
    folder.write("torn", &bits);
    for options in [&[][..], &["--block=256"], &["--json"]] {
        decoded(&folder, options, 0);
    }
    let told = decoded(&folder, &[], 0);
    assert_eq!(told.matches(", loss 0, Whole, ").count(), 40);
    assert!(told.contains("\nin no frame: 0 bits in 0 stretches\nbefore the first flag 0\n"));
    let arguments = ["show", "--circuits=01", "--block=256", "--strict", "bits"];
    assert!(folder
        .run(&arguments)
        .told()
        .contains("\nNo place went wrong.\n"));
}

/// Eight blocks zeroed look as if nothing were lost.
#[test]
fn eight_blocks_zeroed() {
    let folder = torn("gaps-eight", 8, 0);
    let told = decoded(&folder, &[], 3);
    let lines = "\
bits 5120 to 7167: in no frame, 2048 bits
bit 7296: 01, loss 0 modulo 8 (2048 bits in no frame), Whole, length 9: \"charge 28\"
bit 7552: 01, loss 0, Whole, ";
    assert!(told.contains(lines), "{told}");
    let totals = "
in no frame: 2048 bits in 1 stretch
before the first flag 0
known only modulo 8: 1 place
No trace is left by bits missing altogether, dropouts to flags and,
without --block, dropouts to ones behind a flag.
";
    assert!(told.ends_with(totals), "{told}");
    assert!(told.contains("\nlost                        0\nmodulo 8                    1\n"));
    let ran = folder.run(&["decode", "--circuits=01", "--strict", "torn"]);
    let faults = "1 place known only modulo 8, 2048 bits in no frame";
    assert_eq!(ran.err, format!("aes18: torn: --strict: {faults}\n"));
}

#[test]
fn eight_blocks_zeroed_in_json() {
    let folder = torn("gaps-json", 8, 0);
    let told = decoded(&folder, &["--json"], 3);
    let lines = r#"
{"gap":{"from":5120,"to":7168,"bits":2048}}
{"bit":7296,"notice":"Circuit","number":0,"circuit":"01","loss":0,"modulo8":true,"gap_bits":2048,"fate":"Whole","length":9,"#;
    assert!(told.contains(lines), "{told}");
    let objects = objects(&told);
    assert_eq!(objects.len(), 34);
    let totals = &objects[33]["totals"];
    let figures = ["before", "gaps", "gap_bits", "modulo8", "spoilt"];
    let figures = figures.map(|figure| totals[figure].as_u64().unwrap());
    assert_eq!(figures, [0, 1, 2048, 1, 0]);
    assert_eq!(totals["circuits"][0]["modulo8"], 1);
    assert_eq!(totals["untraced"].as_array().unwrap().len(), 3);
}

/// Seven blocks zeroed make a message that came look like a copy.
#[test]
fn seven_blocks_zeroed() {
    let folder = torn("gaps-seven", 7, 0);
    let told = decoded(&folder, &["--block=256"], 3);
    let lines = "\
bits 5120 to 6911: in no frame, 1792 bits
bit 7040: 01, loss 0 modulo 8 (1792 bits in no frame), Copy
";
    assert!(told.contains(lines), "{told}");
    assert!(told.ends_with("and\ndropouts to ones behind a flag up to its block's end.\n"));
    let told = decoded(&folder, &["--json"], 3);
    let copy = r#""loss":0,"modulo8":true,"gap_bits":1792,"fate":"Copy"}"#;
    assert!(told.contains(copy), "{told}");
}

/// One block zeroed is told, and its loss is known.
#[test]
fn one_block_zeroed() {
    let folder = torn("gaps-one", 1, 0);
    let told = decoded(&folder, &[], 3);
    let lines = "\
bits 5120 to 5375: in no frame, 256 bits
bit 5504: 01, loss 1, Whole, ";
    assert!(told.contains(lines), "{told}");
}

#[test]
fn zeroed_blocks_shown() {
    for (blocks, last, free, fate) in [(7, 6911, 1792, "Copy"), (8, 7167, 2048, "Whole, length 9")]
    {
        let folder = torn("gaps-shown", blocks, 0);
        let arguments = ["show", "--circuits=01", "--block=256", "--width=80", "torn"];
        let told = folder.run(&arguments).told();
        let row = 20 + blocks;
        let frame = 256 * row + 8;
        let places = format!(
            "\n2 places went wrong:\n  block 20, bits 5120 to {last}: in no frame, {free} bits\n  \
             block {row}, bits {frame} to {}: 01, loss 0 modulo 8 ({free} bits in no frame), {fate}\n",
            frame + 111
        );
        assert!(told.contains(&places), "{told}");
        assert!(
            told.contains("\n           ^0 modulo 8 lost of circuit 0\n"),
            "{told}"
        );
        assert!(
            told.contains(&format!("\n~  bits in no frame {free:>19}\n")),
            "{told}"
        );
        assert!(told.contains("\nmodulo 8                    1\n"), "{told}");
        let ran = folder.run(&[&arguments[..], &["--strict"]].concat());
        assert_eq!((ran.status, String::from_utf8(ran.out).unwrap()), (3, told));
        let svg = ["show", "--circuits=01", "--block=256", "--svg=-", "torn"];
        let told = folder.run(&svg).told();
        assert!(told.contains(">0 modulo 8 lost of 01</text>"), "{told}");
    }
}

/// Figures and places are of what is shown, and what is known of a loss is of the whole pass.
#[test]
fn a_range_shown() {
    let folder = torn("gaps-range", 8, 0);
    let told = |from: &str, to: &str, status: i32| {
        let range = [
            "show",
            "--circuits=01",
            "--strict",
            "--from",
            from,
            "--to",
            to,
            "torn",
        ];
        let ran = folder.run(&range);
        let told = String::from_utf8(ran.out).unwrap();
        assert_eq!(ran.status, status, "{told}");
        told
    };
    assert!(told("0", "5120", 0).contains("\nNo place went wrong.\n"));
    for (from, to, bits) in [
        ("5119", "5121", 1),
        ("5000", "7000", 1880),
        ("6000", "6001", 1),
        ("7000", "7168", 168),
        ("5120", "7168", 2048),
    ] {
        let all = told(from, to, 3);
        let place = "\n1 place went wrong:\n  bits 5120 to 7167: in no frame, 2048 bits\n";
        assert!(all.contains(place), "{all}");
        let figure = format!("\n~  bits in no frame        {bits:12}\n");
        assert!(all.contains(&figure), "{all}");
    }
    let ones = told("5100", "5110", 0);
    assert!(
        ones.contains("\n-  closing ones                      10\n"),
        "{ones}"
    );
    let behind = told("7168", "10000", 3);
    assert!(behind.contains("\n1 place went wrong:\n  bits 7176 to 7287: 01, loss 0 modulo 8 "));
    assert!(told("7300", "10000", 0).contains("\nNo place went wrong.\n"));
}

/// Ones behind a flag are closing ones, with `--block` only up to the block's end. So a block in which nothing was sent is told, too.
#[test]
fn blocks_of_ones() {
    let folder = torn("gaps-ones", 8, 0xFF);
    let told = decoded(&folder, &[], 0);
    assert!(
        !told.contains(": in no frame")
            && told.contains(", loss 0, Whole, length 9: \"charge 28\"")
    );
    let told = decoded(&folder, &["--block=256"], 3);
    let lines = "\
bits 5120 to 7167: in no frame, 2048 bits
bit 7296: 01, loss 0 modulo 8 (2048 bits in no frame), Whole, ";
    assert!(told.contains(lines), "{told}");
    let show = |options: &[&str]| {
        let arguments = [&["show", "--circuits=01", "--strict", "torn"], options].concat();
        folder.run(&arguments).status
    };
    assert_eq!((show(&[]), show(&["--block=256"])), (0, 3));
    let scan = |options: &[&str]| folder.run(&[&["scan", "torn"], options].concat()).told();
    assert!(scan(&[]).contains("\nin no frame: 0 bits in 0 stretches\n"));
    let told = scan(&["--block=256"]);
    let lines = "
in no frame: 2048 bits in 1 stretch
before the first flag 0
known only modulo 8: 1 place
  bits 5120 to 7167: in no frame, 2048 bits
No trace is left by bits missing altogether, dropouts to flags and
dropouts to ones behind a flag up to its block's end.
";
    assert!(told.ends_with(lines), "{told}");

    let bits = [&framed(&[b"\x01\x80\x01a"])[..], &[true; 500]].concat();
    decoded_bits(&folder, &bits, &[], 0);
    let told = decoded_bits(&folder, &bits, &["--block=256"], 3);
    let last = bits.len().next_multiple_of(8) - bits.len();
    let free = bits.len() - 256 + last;
    assert!(
        told.contains(&format!(
            "\nbits 256 to {}: in no frame, {free} bits\n",
            255 + free
        )),
        "{told}"
    );
}

/// Dropouts to flags leave no trace, nor do bits that are missing.
#[test]
fn no_trace() {
    let folder = torn("gaps-flags", 8, 0x7E);
    let told = decoded(&folder, &["--block=256"], 0);
    assert!(
        told.contains("\nin no frame: 0 bits in 0 stretches\n"),
        "{told}"
    );
    let mut bits = folder.read("bits");
    bits.drain(20 * 32..28 * 32);
    folder.write("torn", &bits);
    decoded(&folder, &["--block=256"], 0);
}

/// The packet of one byte at circuit 01 with that index, or at 02.
fn packet(address: u8, index: u8) -> [u8; 4] {
    [address, 0x80 | index << 2, 0x01, index]
}

/// Two frames with so many zeros between their flags.
fn apart(zeros: usize, index: u8) -> Vec<bool> {
    let frame = |index| framed(&[&packet(1, index)]);
    [frame(0), vec![false; zeros], frame(index)].concat()
}

/// From 280 bits in no frame on a loss is known only modulo 8, and so is that a packet is a copy.
#[test]
fn seven_of_the_shortest_frames() {
    let folder = Folder::new("gaps-280");
    for (index, told_as) in [(0, "Copy"), (1, "Whole"), (4, "Whole")] {
        let loss = u8::saturating_sub(index, 1);
        for (zeros, modulo) in [(1, false), (279, false), (280, true), (281, true)] {
            let told = decoded_bits(&folder, &apart(zeros, index), &[], 3);
            let doubt = format!(" modulo 8 ({zeros} bits in no frame)");
            let line = format!(
                ": 01, loss {loss}{}, {told_as}",
                if modulo { &doubt } else { "" }
            );
            assert!(told.contains(&line), "{line}: {told}");
            let places = if modulo { "1 place\n" } else { "0 places\n" };
            assert!(
                told.contains(&format!("known only modulo 8: {places}")),
                "{told}"
            );
        }
    }
}

/// What lies between two packets of a circuit is added up, whatever else lies between them; the first of a circuit is never in doubt.
#[test]
fn stretches_are_added_up() {
    let folder = Folder::new("gaps-sum");
    let frame = |address, index| framed(&[&packet(address, index)]);
    let zeros = |count| vec![false; count];
    let bits = [
        frame(1, 0),
        zeros(100),
        frame(2, 0),
        zeros(100),
        framed(&[b"\x03\x80\x01a"]),
        zeros(79),
        frame(1, 1),
        zeros(1),
        frame(2, 1),
        zeros(279),
        frame(1, 2),
    ];
    folder.write("torn", bytes_of(&bits.concat()));
    let told = folder.run(&["decode", "--circuits=01,02", "torn"]).told();
    let notices: Vec<&str> = told
        .lines()
        .filter(|line| line.contains(", loss ") || line.contains(": Elsewhere"))
        .map(|line| line.split_once(": ").unwrap().1)
        .collect();
    let whole = "Whole, length 1: 0";
    let expected = [
        format!("01, loss 0, {whole}0"),
        format!("02, loss 0, {whole}0"),
        "Elsewhere, 03".to_string(),
        format!("01, loss 0, {whole}1"),
        format!("02, loss 0, {whole}1"),
        format!("01, loss 0 modulo 8 (280 bits in no frame), {whole}2"),
    ];
    assert_eq!(notices, expected);
    assert!(
        told.contains("\nin no frame: 559 bits in 5 stretches\n"),
        "{told}"
    );
    assert!(
        told.contains("\nmodulo 8                    1                0\n"),
        "{told}"
    );
}

/// A copy ends what is added up before it.
#[test]
fn a_copy_is_heard() {
    let folder = Folder::new("gaps-copy");
    let frame = |index| framed(&[&packet(1, index)]);
    let bits = [
        frame(0),
        vec![false; 200],
        frame(0),
        vec![false; 200],
        frame(1),
    ]
    .concat();
    let told = decoded_bits(&folder, &bits, &[], 3);
    assert!(told.contains("known only modulo 8: 0 places"), "{told}");
    assert!(
        told.contains("\nin no frame: 400 bits in 2 stretches\n"),
        "{told}"
    );
}

/// Spoilt and short bodies are in the stretch, with the flags that border nothing else.
#[test]
fn spoilt_bodies() {
    let folder = Folder::new("gaps-spoilt");
    let frame = framed(&[&packet(1, 0)]);
    let mut spoilt = frame[8..frame.len() - 8].to_vec();
    spoilt[3] ^= true;
    let flag = bits_of(&[0x7E]);
    let (start, length) = (frame.len(), spoilt.len());
    let bits = [
        &frame[..],
        &spoilt,
        &flag,
        &[false, true, false],
        &flag,
        &spoilt,
        &frame,
    ]
    .concat();
    let told = decoded_bits(&folder, &bits, &[], 3);
    let last = start + 2 * length + 8 + 3 + 8 - 1;
    assert!(
        told.contains(&format!("\nbits {start} to {last}: in no frame, ")),
        "{told}"
    );
    assert_eq!(told.matches(": Spoilt\n").count(), 2, "{told}");
    let bits = [&frame[..], &spoilt, &flag, &flag, &spoilt, &frame].concat();
    let told = decoded_bits(&folder, &bits, &[], 3);
    assert!(
        told.contains(&format!(
            "\nin no frame: {} bits in 2 stretches\n",
            2 * length
        )),
        "{told}"
    );
}

/// A recording may begin inside a frame: that is told, and `--strict` lets it pass. Where there is no flag at all, it does not.
#[test]
fn before_the_first_flag() {
    let folder = Folder::new("gaps-before");
    let frame = framed(&[&packet(1, 0)]);
    let bits = [&frame[13..], &[true; 20], &frame].concat();
    let before = frame.len() - 13 - 8;
    let told = decoded_bits(&folder, &bits, &[], 0);
    let line = format!(
        "bits 0 to {}: before the first flag, {before} bits\n",
        before - 1
    );
    assert!(told.starts_with(&line), "{told}");
    assert!(
        told.contains(&format!("\nbefore the first flag {before}\n")),
        "{told}"
    );
    let told = decoded_bits(&folder, &bits, &["--json"], 0);
    let line =
        format!(r#"{{"gap":{{"from":0,"to":{before},"bits":{before},"before_first_flag":true}}}}"#);
    assert_eq!(told.lines().next(), Some(line.as_str()));
    let shown = folder
        .run(&["show", "--circuits=01", "--strict", "torn"])
        .told();
    let place = format!(
        "\nNo place went wrong.\nbits 0 to {}: before the first flag, ",
        before - 1
    );
    assert!(shown.contains(&place), "{shown}");
    for byte in [0x00, 0x55, 0xFF] {
        folder.write("torn", [byte; 10]);
        let told = decoded(&folder, &["--quiet"], 3);
        assert!(
            told.starts_with("bits 0 to 79: in no frame, 80 bits\n"),
            "{told}"
        );
    }
}

/// What no recording begins with is judged as other stretches in no frame are: too much for a part of a frame, or seven ones in it.
#[test]
fn noise_before_the_first_flag() {
    let folder = Folder::new("gaps-noise");
    let frame = framed(&[&packet(1, 0)]);
    let judged = |before: &[bool], options: &[&str], strict: i32| {
        let bits = [before, &frame].concat();
        let count = before.len();
        let line = format!(
            "bits 0 to {}: before the first flag, {count} bits\n",
            count - 1
        );
        let told = decoded_bits(&folder, &bits, options, strict);
        assert!(told.starts_with(&line), "{told}");
        let outside =
            format!("\nin no frame: 0 bits in 0 stretches\nbefore the first flag {count}\n");
        assert!(told.contains(&outside), "{told}");
        let show = ["show", "--circuits=01", "--strict", "torn"];
        let ran = folder.run(&[&show[..], options].concat());
        let fault = format!("aes18: torn: --strict: {count} bits before the first flag\n");
        let fault = if strict == 3 { fault } else { String::new() };
        assert_eq!((ran.status, ran.err), (strict, fault));
        let shown = String::from_utf8(ran.out).unwrap();
        let block = if options.is_empty() { "" } else { "block 0, " };
        let places = match strict {
            3 => format!("\n1 place went wrong:\n  {block}{line}"),
            _ => format!("\nNo place went wrong.\n{line}"),
        };
        assert!(shown.contains(&places), "{shown}");
    };
    judged(&[false; 208], &[], 0);
    judged(&[false; 209], &[], 3);
    judged(
        &[&[false; 2][..], &[true; 6], &[false; 2]].concat()[..7],
        &[],
        0,
    );
    judged(&[&[false][..], &[true; 7]].concat(), &[], 3);
    judged(&[&[true; 7][..], &[false]].concat(), &[], 3);
    judged(&[true; 2000], &[], 0);
    judged(&[true; 255], &["--block=256"], 0);
    judged(&[true; 256], &["--block=256"], 3);
}

/// The first eight of forty blocks zeroed.
#[test]
fn a_dropout_at_the_start() {
    let folder = Folder::new("gaps-start");
    let mut bits = forty(&folder);
    bits[..8 * 32].fill(0);
    folder.write("torn", &bits);
    let told = decoded(&folder, &[], 3);
    assert!(told.starts_with("bits 0 to 2047: before the first flag, 2048 bits\n"));
    let strict = folder.run(&["decode", "--circuits=01", "--strict", "torn"]);
    let fault = "aes18: torn: --strict: 2048 bits before the first flag\n";
    assert_eq!(strict.err, fault);
    let scan = folder.run(&["scan", "torn"]).told();
    assert!(scan.contains("\n  bits 0 to 2047: before the first flag, 2048 bits\n"));
}

/// With `--strict` a standard output that is closed early does not end the reading, and what is at fault behind it is judged.
#[test]
fn a_closed_output_is_judged() {
    let folder = Folder::new("gaps-closed");
    let again = "offer 0 0 0 \"again\"\nblock 256 256\n".repeat(20_000);
    folder.write("plan", format!("circuits 01\n{again}"));
    assert_eq!(folder.run(&["encode", "plan", "-o", "whole"]).status, 0);
    let mut bits = folder.read("whole");
    let last = bits.len() - 64;
    bits[last..].fill(0);
    folder.write("torn", &bits);
    let status = |arguments: &[&str]| {
        let mut child = folder
            .command(arguments)
            .stdout(Stdio::piped())
            .stderr(Stdio::piped())
            .spawn()
            .unwrap();
        drop(child.stdout.take());
        let output = child.wait_with_output().unwrap();
        let said = String::from_utf8(output.stderr).unwrap();
        assert_eq!(said.is_empty(), output.status.code() == Some(0), "{said}");
        output.status.code().unwrap()
    };
    for command in [
        &["decode", "--circuits=01"][..],
        &["decode", "--circuits=01", "--json"],
        &["show", "--circuits=01"],
        &["show", "--circuits=01", "--svg=-", "--from=5000000"],
        &["show", "--circuits=01", "--svg=svg", "--from=5000000"],
    ] {
        assert_eq!(status(&[command, &["torn"]].concat()), 0, "{command:?}");
        assert_eq!(
            status(&[command, &["--strict", "torn"]].concat()),
            3,
            "{command:?}"
        );
        assert_eq!(
            status(&[command, &["--strict", "whole"]].concat()),
            0,
            "{command:?}"
        );
    }
}

/// Up to seven zeros that end a file behind closing ones or a flag are spare bits.
#[test]
fn spare_zeros() {
    let folder = Folder::new("gaps-spare");
    let frame = framed(&[&packet(1, 0)]);
    for ones in 0..10 {
        let bits = [&frame[..], &vec![true; ones]].concat();
        decoded_bits(&folder, &bits, &[], 0);
        let told = decoded_bits(&folder, &[&bits[..], &[false; 8]].concat(), &[], 3);
        assert!(told.contains("\nin no frame: "), "{told}");
    }
}

/// The packets of a message of 40 bytes: 14, 16 and 10 of them.
fn message(index: u8) -> [Vec<u8>; 3] {
    let control = |link: u8, index: u8| link << 6 | (index & 7) << 2;
    [
        [&[1, control(2, index), 0x10, 0x28][..], &[b'a'; 14]].concat(),
        [&[1, control(0, index + 1)][..], &[b'b'; 16]].concat(),
        [&[1, control(1, index + 2)][..], &[b'c'; 10]].concat(),
    ]
}

/// A message open at the end of the file is named.
#[test]
fn open_at_the_end() {
    let folder = Folder::new("gaps-open");
    let [begun, held, last] = message(0);
    let place = framed(&[&begun]).len();
    for (packets, received) in [(&[&begun[..]][..], 14), (&[&begun[..], &held], 30)] {
        let told = decoded_bits(&folder, &framed(packets), &[], 3);
        let line = format!(
            "01: open at the end, {received} of 40 bytes, begun by the frame before bit {place}\n"
        );
        assert!(told.contains(&format!("\n{line}")), "{told}");
        let told = decoded_bits(&folder, &framed(packets), &["--json"], 3);
        let open = format!(
            r#""open":[{{"number":0,"circuit":"01","received":{received},"length":40,"bit":{place}}}]"#
        );
        assert!(told.contains(&open), "{told}");
        let ran = folder.run(&["show", "--circuits=01", "--strict", "torn"]);
        assert_eq!(ran.status, 3);
        assert_eq!(
            ran.err,
            "aes18: torn: --strict: 1 message open at the end\n"
        );
        let shown = String::from_utf8(ran.out).unwrap();
        let places = format!("\n1 place went wrong:\n  {line}");
        assert!(shown.contains(&places), "{shown}");
    }
    let told = decoded_bits(&folder, &framed(&[&begun, &held, &last]), &[], 0);
    assert!(!told.contains("open at the end"), "{told}");
}

/// A message begun is dropped by a loss, by a packet that is wrong, by another beginning and by a message of one packet; a copy drops nothing.
#[test]
fn dropped_messages() {
    let folder = Folder::new("gaps-dropped");
    let [begun, held, last] = message(0);
    let short = [&[1, 0x04][..], &[b'b'; 15]].concat();
    let again = &message(1)[0];
    let cases: [(&[&[u8]], &str, usize); 6] = [
        (&[&begun, &begun, &held, &held, &last], "", 0),
        (&[&begun, &last], "loss 1, message dropped, Orphan", 0),
        (&[&begun, &short], "loss 0, message dropped, Wrong", 0),
        (&[&begun, again], "loss 0, message dropped, Begun", 1),
        (
            &[&begun, &packet(1, 1)],
            "loss 0, message dropped, Whole, length 1: 01",
            0,
        ),
        (
            &[&begun, &packet(1, 3)],
            "loss 2, message dropped, Whole, length 1: 03",
            0,
        ),
    ];
    for (packets, words, open) in cases {
        let dropped = usize::from(!words.is_empty());
        let strict = if dropped > 0 { 3 } else { 0 };
        let told = decoded_bits(&folder, &framed(packets), &[], strict);
        assert!(told.contains(words), "{told}");
        assert!(
            told.contains(&format!("\ndropped     {dropped:17}\n")),
            "{told}"
        );
        assert_eq!(told.matches(": open at the end, ").count(), open, "{told}");
        let json = decoded_bits(&folder, &framed(packets), &["--json"], strict);
        assert_eq!(
            json.matches(r#","dropped":true,"fate":"#).count(),
            dropped,
            "{json}"
        );
        let shown = folder.run(&["show", "--circuits=01", "torn"]).told();
        assert_eq!(
            shown.contains("No place went wrong"),
            dropped + open == 0,
            "{shown}"
        );
    }
}

/// Bits that come in parts, cut anywhere, are told the same.
#[test]
fn every_cut() {
    let folder = Folder::new("gaps-cuts");
    let frame = |index| framed(&[&packet(1, index)]);
    let bits = [
        vec![false, true, false],
        frame(0),
        vec![false; 5],
        bits_of(&[0x7E]),
        vec![true; 30],
        vec![false; 300],
        frame(1),
        vec![true; 3],
        vec![false; 9],
    ];
    let bytes = bytes_of(&bits.concat());
    folder.write("torn", &bytes);
    let expected = decoded(&folder, &["--block=256"], 3);
    for cut in 0..=bytes.len() {
        let parts = [&bytes[..cut], &bytes[cut..]];
        assert_eq!(piped(&folder, &parts), expected, "{cut}");
    }
    let parts: Vec<&[u8]> = bytes.chunks(1).collect();
    assert_eq!(piped(&folder, &parts), expected);
}

/// What decode tells of parts that come one by one.
fn piped(folder: &Folder, parts: &[&[u8]]) -> String {
    let mut child = folder
        .command(&["decode", "--circuits=01", "--block=256", "-"])
        .stdin(Stdio::piped())
        .stdout(Stdio::piped())
        .spawn()
        .unwrap();
    let mut stdin = child.stdin.take().unwrap();
    for part in parts {
        stdin.write_all(part).unwrap();
        stdin.flush().unwrap();
        std::thread::sleep(std::time::Duration::from_millis(2));
    }
    drop(stdin);
    let output = child.wait_with_output().unwrap();
    String::from_utf8(output.stdout).unwrap()
}

/// A stretch is told as soon as its end is known: at closing ones behind the flag that ends it, or at the frame behind it.
#[test]
fn told_as_it_comes() {
    let folder = Folder::new("gaps-piped");
    let mut child = folder
        .command(&["decode", "--circuits=01", "-"])
        .stdin(Stdio::piped())
        .stdout(Stdio::piped())
        .spawn()
        .unwrap();
    let mut stdin = child.stdin.take().unwrap();
    let mut told = BufReader::new(child.stdout.take().unwrap()).lines();
    let mut send = |bytes: &[u8]| {
        stdin.write_all(bytes).unwrap();
        stdin.flush().unwrap();
    };
    let mut line = || told.next().unwrap().unwrap();
    send(&[0x55, 0x7E]);
    assert_eq!(line(), "bits 0 to 7: before the first flag, 8 bits");
    send(&[0xFF, 0x00, 0x00, 0x7E, 0xFF]);
    assert_eq!(line(), "bits 24 to 39: in no frame, 16 bits");
    send(&[&[0x00][..], &bytes_of(&framed(&[&[1, 0x80, 0x00]]))].concat());
    assert_eq!(line(), "bits 56 to 63: in no frame, 8 bits");
    assert_eq!(line(), "bit 120: 01, loss 0, Whole, length 0: \"\"");
    drop(stdin);
    child.wait().unwrap();
}

/// Rows of a picture, and the stretches of a scan for programs, are told as they come.
#[test]
fn shown_and_scanned_as_it_comes() {
    let folder = Folder::new("gaps-piped-rows");
    let row = |first: &str| format!("{first:>8} {}", "~".repeat(67));
    let cases = [
        (
            &["show", "--circuits=01", "--width=80", "--color=never", "-"][..],
            vec![
                "standard input: rows of 1000 bits, 15 to a character".to_string(),
                "     bit".to_string(),
                row("0"),
            ],
        ),
        (
            &["scan", "--json", "-"],
            vec![
                r#"{"gap":{"from":0,"to":1200,"bits":1200,"before_first_flag":true}}"#.to_string(),
                r#"{"gap":{"from":1216,"to":1224,"bits":8}}"#.to_string(),
            ],
        ),
    ];
    for (arguments, lines) in cases {
        let mut child = folder
            .command(arguments)
            .stdin(Stdio::piped())
            .stdout(Stdio::piped())
            .stderr(Stdio::null())
            .spawn()
            .unwrap();
        let mut stdin = child.stdin.take().unwrap();
        stdin.write_all(&[0; 150]).unwrap();
        stdin.write_all(&[0x7E, 0x7E, 0x00, 0x7E, 0xFF]).unwrap();
        stdin.flush().unwrap();
        let mut told = BufReader::new(child.stdout.take().unwrap()).lines();
        for line in lines {
            assert_eq!(told.next().unwrap().unwrap(), line);
        }
        drop(stdin);
        child.wait().unwrap();
    }
}

#[test]
fn wrong_options() {
    let folder = Folder::new("gaps-options");
    let see = "See aes18 decode --help.\n";
    for (option, message) in [
        (
            "--block=255",
            "--block: expected a number from 256 to 27000, not '255'",
        ),
        (
            "--block=27001",
            "--block: expected a number from 256 to 27000, not '27001'",
        ),
        ("--strict=yes", "the option --strict takes no value"),
    ] {
        let ran = folder.run(&["decode", "--circuits=01", option, "bits"]);
        ran.failed(2, &format!("aes18: {message}\n{see}"));
    }
    let ran = folder.run(&["decode", "--circuits=01", "--line", "--block=256", "line"]);
    let message = "--block does not go with --line";
    ran.failed(2, &format!("aes18: {message}\n{see}"));
}

/// The forty messages with so many blocks from block 20 on zeroed, as `torn`, and the same as `capture` in its left channel, whose right channel has
/// forty other messages.
fn torn_capture(name: &str, blocks: usize) -> Folder {
    let folder = torn(name, blocks, 0);
    let plan = String::from_utf8(folder.read("plan")).unwrap();
    let other = plan.replace("circuits 01", "circuits 05");
    folder.write("other", other.replace("charge", "switch"));
    let into = ["--format=iec958", "--channel=right", "--into=left"];
    for (options, plan, file) in [
        (&into[..1], "plan", "left"),
        (&into, "other", "capture"),
        (&[], "other", "other.bits"),
    ] {
        let arguments = [&["encode", "-q", plan, "-o", file], options].concat();
        assert_eq!(folder.run(&arguments).told(), "");
    }
    let mut capture = folder.read("capture");
    for frame in 20 * 256..(20 + blocks) * 256 {
        capture[8 * frame + 3] &= !0x20;
    }
    folder.write("capture", capture);
    folder
}

/// What a run tells, by its status and without the name of the file, and what it says on the standard error.
fn told(folder: &Folder, arguments: &[&str], file: &str) -> (i32, String, String) {
    let ran = folder.run(&[arguments, &[file]].concat());
    let out = String::from_utf8(ran.out).unwrap();
    let named = |text: &str| text.replace(&format!("{file}: "), "file: ");
    (ran.status, named(&out), named(&ran.err))
}

/// The dropout is told by every subcommand, out of bits and out of a capture whose other channel is whole, with circuits listed or not.
#[test]
fn the_dropout_everywhere() {
    for (blocks, last, fate) in [
        (8, 7167, "Whole, length 9"),
        (7, 6911, "Copy"),
        (0, 0, "Whole"),
    ] {
        let folder = torn_capture(&format!("gaps-everywhere-{blocks}"), blocks);
        let gap = format!("bits 5120 to {last}: in no frame, {} bits\n", 256 * blocks);
        let mark = format!(
            ": 01, loss 0 modulo 8 ({} bits in no frame), {fate}",
            256 * blocks
        );
        let object = format!(r#"{{"gap":{{"from":5120,"to":{},"#, last + 1);
        for circuits in [&[][..], &["--circuits=01"]] {
            let decode = [&["decode"], circuits].concat();
            let json = [&["decode", "--json"], circuits].concat();
            let show = [&["show", "--width=80"], circuits].concat();
            let cases: [(&[&str], &[&str]); 5] = [
                (&decode, &[&gap, &mark, "modulo 8: 1 place\n"]),
                (&json, &[&object, r#""loss":0,"modulo8":true,"#]),
                (&show, &[&gap, &mark, "modulo 8                    1\n"]),
                (&["scan"], &[&gap, "modulo 8: 1 place\n"]),
                (&["scan", "--json"], &[&object, r#""modulo8":1,"from":0"#]),
            ];
            for (arguments, parts) in cases {
                let bits = told(&folder, arguments, "torn");
                for part in parts {
                    assert_eq!(bits.1.contains(part), blocks > 0, "{part}: {}", bits.1);
                }
                let arguments = [arguments, &["--format=iec958"]].concat();
                assert_eq!(told(&folder, &arguments, "capture"), bits);
                let right = [&arguments[..], &["--channel=right"]].concat();
                let right = told(&folder, &right, "capture");
                assert!(!right.1.contains("bits 5120 to"), "{}", right.1);
            }
        }
    }
}

/// `--strict` ends with 3 at the dropout and with 0 without it, by every way to the bits.
#[test]
fn strict_everywhere() {
    for blocks in [0, 7, 8] {
        let folder = torn_capture(&format!("gaps-strict-{blocks}"), blocks);
        let left: &[&str] = &["--format=iec958", "capture"];
        let right: &[&str] = &["--format=iec958", "--channel=right", "capture"];
        let status = if blocks > 0 { 3 } else { 0 };
        for subcommand in [&["decode"][..], &["decode", "--json"], &["show"]] {
            for (file, expected) in [(&["torn"][..], status), (left, status), (right, 0)] {
                for options in [&[][..], &["--circuits=01,05"], &["--block=256"]] {
                    let arguments = [subcommand, &["--strict", "-q"], options, file].concat();
                    let ran = folder.run(&arguments);
                    assert_eq!(ran.status, expected, "{arguments:?}: {}", ran.err);
                    assert_eq!(ran.err.contains(": --strict: "), expected == 3);
                }
            }
        }
    }
}

/// The address of a packet of a circuit that is not listed, in decode and in the picture.
#[test]
fn elsewhere_by_its_address() {
    let folder = Folder::new("gaps-elsewhere");
    let packets: [&[u8]; 2] = [b"\x7E\x80\x01a", b"\x02\xA1\x07\x01a"];
    folder.write("bits", bytes_of(&framed(&packets)));
    let decoded = folder.run(&["decode", "--circuits=01", "bits"]).told();
    let drawn = folder
        .run(&["show", "--circuits=01", "--svg=-", "bits"])
        .told();
    for address in ["7E", "02:07"] {
        assert!(decoded.contains(&format!(": Elsewhere, {address}\n")));
        assert!(
            drawn.contains(&format!(": Elsewhere, {address}; ")),
            "{drawn}"
        );
    }
}

/// A circuit's stretches are added up by scan between any two of its packets, copies too, from 280 bits on.
#[test]
fn doubts_of_a_scan() {
    let folder = Folder::new("gaps-scan");
    for (free, modulo) in [(279, 0), (280, 1)] {
        let frames = |packets: &[&[u8]]| framed(packets);
        let bits = [
            frames(&[b"\x01\x80\x01a", b"\x02\x80\x01a"]),
            vec![false; free],
            frames(&[b"\x02\x80\x01a"]),
            frames(&[b"\x02\x84\x01b"]),
            frames(&[b"\x01\x84\x01b"]),
        ];
        folder.write("bits", bytes_of(&bits.concat()));
        let objects = objects(&folder.run(&["scan", "--json", "bits"]).told());
        let figure = |object: usize, name: &str| objects[object][name].as_u64().unwrap();
        assert_eq!(objects[0]["gap"]["bits"], free);
        assert_eq!(
            [figure(1, "modulo8"), figure(2, "modulo8")],
            [modulo, modulo]
        );
        assert_eq!([figure(2, "packets"), figure(2, "copies")], [2, 1]);
        let totals = &objects[3]["totals"];
        assert_eq!(totals["modulo8"], 2 * modulo);
        assert_eq!(
            (&totals["gaps"], &totals["gap_bits"]),
            (&1.into(), &free.into())
        );
    }
}

/// The first forty stretches are listed by scan, all of them to programs; what stands before the first flag is one of them.
#[test]
fn many_stretches_of_a_scan() {
    let folder = Folder::new("gaps-many");
    let frame = framed(&[&packet(1, 0)]);
    for (stretches, before, more) in [(40, 0, ""), (41, 0, "1"), (42, 5, "3")] {
        let mut bits = vec![false; before];
        bits.extend(&frame);
        (0..stretches).for_each(|_| bits.extend([&[false; 9][..], &frame].concat()));
        folder.write("bits", bytes_of(&bits));
        let text = folder.run(&["scan", "bits"]).told();
        let listed = text
            .lines()
            .filter(|line| line.starts_with("  bits "))
            .count();
        assert_eq!(listed, 40, "{text}");
        let words = format!("\n  and {more} more (aes18 decode tells them)\n");
        assert_eq!(text.contains(&words), !more.is_empty(), "{text}");
        let objects = objects(&folder.run(&["scan", "--json", "bits"]).told());
        let gaps = objects.iter().filter(|object| object["gap"].is_object());
        assert_eq!(gaps.count(), stretches + usize::from(before > 0));
    }
}

/// What line says of the bits as `torn` with these options, behind the packets and the bytes; with `--strict` the exit status has to be that, and the
/// line is the same.
fn lined(folder: &Folder, options: &[&str], strict: i32) -> String {
    let arguments = [&["line", "torn", "-o", "line"], options].concat();
    let ran = folder.run(&arguments);
    assert_eq!(ran.status, 0, "{}", ran.err);
    let line = folder.read("line");
    folder.write("line", "");
    let judged = folder.run(&[&arguments[..], &["--strict"]].concat());
    assert_eq!(judged.status, strict, "{}", judged.err);
    assert_eq!(folder.read("line"), line);
    assert!(judged.err.starts_with(&ran.err), "{}", judged.err);
    assert_eq!(judged.err.len() == ran.err.len(), strict == 0);
    ran.err.split_once("; ").unwrap().1.to_string()
}

/// The dropout is told where the line is written: the line has no trace of it.
#[test]
fn eight_blocks_zeroed_on_a_line() {
    let folder = torn("gaps-line", 8, 0);
    let said = "\
spoilt frames left out: 0
in no frame: 2048 bits in 1 stretch
before the first flag 0
known only modulo 8: 1 place
";
    assert_eq!(lined(&folder, &[], 3), said);
    assert_eq!(lined(&folder, &["--block=256"], 3), said);
    let ran = folder.run(&["line", "--strict", "-q", "torn", "-o", "line"]);
    let faults = "1 place known only modulo 8, 2048 bits in no frame";
    assert_eq!(ran.err, format!("aes18: torn: --strict: {faults}\n"));
    let arguments = ["decode", "--line", "--circuits=01", "--strict", "line"];
    let told = folder.run(&arguments).told();
    assert!(told.contains("\nknown only modulo 8: 0 places\n"), "{told}");
    let untraced = "\nwhat was in no frame in the bits that the line was written from.\n";
    assert!(told.ends_with(untraced), "{told}");
}

/// Eight spoilt frames are such a dropout too.
#[test]
fn eight_frames_spoilt_on_a_line() {
    let folder = Folder::new("gaps-line-spoilt");
    let mut bits = forty(&folder);
    (20..28).for_each(|block| bits[block * 32 + 8] ^= 0x01);
    folder.write("torn", &bits);
    let said = lined(&folder, &[], 3);
    assert!(said.starts_with("spoilt frames left out: 8\nin no frame: "));
    assert!(said.ends_with("\nknown only modulo 8: 1 place\n"), "{said}");
}

/// Blocks of ones are told of with the length of a block only, and nothing is at fault in a whole pass.
#[test]
fn blocks_on_a_line() {
    let folder = torn("gaps-line-ones", 8, 0xFF);
    let free = |said: &str| said.lines().nth(1).unwrap().to_string();
    let none = "in no frame: 0 bits in 0 stretches";
    assert_eq!(free(&lined(&folder, &[], 0)), none);
    let ones = "in no frame: 2048 bits in 1 stretch";
    assert_eq!(free(&lined(&folder, &["--block=256"], 3)), ones);
    folder.write("torn", folder.read("bits"));
    assert_eq!(free(&lined(&folder, &["--block=256"], 0)), none);
    let wrong = folder.run(&["line", "--block=255", "torn", "-o", "line"]);
    assert_eq!(wrong.status, 2);
}

/// Every circuit has its place, listed among the first four or not; a malformed packet is on the line, and at fault.
#[test]
fn circuits_and_malformed_packets_on_a_line() {
    let folder = Folder::new("gaps-line-circuits");
    let packets: Vec<[u8; 4]> = (1..=5).map(|address| [address, 0x80, 1, 7]).collect();
    let packets: Vec<&[u8]> = packets.iter().map(|packet| &packet[..]).collect();
    let frames = framed(&packets);
    folder.write(
        "torn",
        bytes_of(&[&frames[..], &[false; 400], &frames].concat()),
    );
    let said = lined(&folder, &[], 3);
    assert!(
        said.ends_with("\nknown only modulo 8: 5 places\n"),
        "{said}"
    );
    folder.write("torn", bytes_of(&framed(&[b"\x01\x80"])));
    lined(&folder, &[], 3);
    let ran = folder.run(&["line", "--strict", "-q", "torn", "-o", "line"]);
    assert_eq!(ran.err, "aes18: torn: --strict: 1 packet malformed\n");
    assert_eq!(folder.read("line").len(), 6);
}

/// Bits are judged also where nobody reads the line.
#[test]
fn a_line_that_is_not_read() {
    let folder = torn("gaps-line-closed", 8, 0);
    for (options, status) in [(&["--strict"][..], 3), (&[], 0)] {
        let mut child = folder
            .command(&[&["line", "-q", "torn", "-o", "-"], options].concat())
            .stdout(Stdio::piped())
            .stderr(Stdio::null())
            .spawn()
            .unwrap();
        drop(child.stdout.take());
        assert_eq!(child.wait().unwrap().code(), Some(status));
    }
}
