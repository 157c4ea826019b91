//! User bits in other formats: the first bit highest, and the channels of captures.

use std::io::{BufRead, BufReader, Write};
use std::process::Stdio;

use super::encode::PLAN;
use super::runs::{Folder, Ran};

const ALL: &str = "--circuits=01,02:07,7E,05";
const LEFT: [&str; 2] = ["--format", "iec958"];
const RIGHT: [&str; 4] = ["--format", "iec958", "--channel", "right"];

/// Another plan, of 605 bits.
const OTHER: &str = "\
circuits 05
offer 0 3 1 \"the other channel\"
block 605 605
";

/// A folder with the plan as `plan`, its 1,805 bits as `bits`, and the other plan as `other`.
fn folder(name: &str) -> Folder {
    let folder = Folder::new(name);
    folder.write("plan", PLAN);
    folder.write("other", OTHER);
    encode(&folder, &[], "plan", "bits");
    folder
}

/// Encodes a plan with options; answers what was told.
fn encode(folder: &Folder, options: &[&str], plan: &str, bits: &str) -> String {
    let ran = folder.run(&[&["encode"], options, &[plan, "-o", bits]].concat());
    assert_eq!(ran.status, 0, "{}", ran.err);
    ran.err
}

/// Decodes a file with options.
fn decode(folder: &Folder, options: &[&str], bits: &str) -> Ran {
    folder.run(&[&["decode", ALL], options, &[bits]].concat())
}

/// The notices and the table of what a decoding tells, without the number of bits read and what is in no frame.
fn notices(told: &str) -> String {
    let other = ["bits ", "in no frame: "];
    let lines = told
        .lines()
        .filter(|line| !other.iter().any(|start| line.starts_with(start)));
    lines.map(|line| format!("{line}\n")).collect()
}

/// What the first `count` bits of packed bytes are.
fn bits(bytes: &[u8], count: usize) -> Vec<bool> {
    let bit = |number: usize| bytes[number / 8] >> (number % 8) & 1 == 1;
    (0..count).map(bit).collect()
}

/// A capture's words.
fn words(capture: &[u8]) -> Vec<u32> {
    assert_eq!(capture.len() % 4, 0);
    let words = capture.chunks(4);
    words
        .map(|word| u32::from_le_bytes(word.try_into().unwrap()))
        .collect()
}

/// Bytes of words.
fn bytes(words: &[u32]) -> Vec<u8> {
    words.iter().flat_map(|word| word.to_le_bytes()).collect()
}

fn even(word: u32) -> bool {
    (word >> 4).count_ones() % 2 == 0
}

/// A word's user bit, and all of it but the user bit and the parity.
fn user(word: u32) -> bool {
    word >> 29 & 1 == 1
}

fn rest(word: u32) -> u32 {
    word & 0x5FFF_FFFF
}

/// A capture of that many frames with ALSA's preambles, noise in the audio, channel status and user bits, and any parity.
fn noisy(frames: usize) -> Vec<u32> {
    let mut noise: u32 = 1;
    let preambles = (0..frames).flat_map(|frame| [if frame % 192 == 0 { 8 } else { 2 }, 4]);
    preambles
        .map(|preamble: u32| {
            noise = noise.wrapping_mul(1_664_525).wrapping_add(1_013_904_223);
            (noise ^ noise << 16) & !15 | preamble
        })
        .collect()
}

/// The words of silence of the specification of ALSA's format, with the user bits in them.
#[test]
fn words_of_silence() {
    let folder = folder("words");
    for (options, channel) in [(&LEFT[..], 0), (&RIGHT, 1)] {
        let told = encode(&folder, options, "plan", "capture");
        assert!(
            told.contains("\n3 blocks, 1805 bits, 1095 used, "),
            "{told}"
        );
        let words = words(&folder.read("capture"));
        assert_eq!(words.len(), 2 * 1805);
        let filed = bits(&folder.read("bits"), 1805);
        for (frame, bit) in filed.into_iter().enumerate() {
            let left = if frame % 192 == 0 { 0x8 } else { 0x2 };
            let mut expected = [left, 0x4];
            expected[channel] |= u32::from(bit) * 0xA000_0000;
            assert_eq!(words[2 * frame..][..2], expected, "{frame}");
        }
    }
}

/// The user bits of a capture are those of the file of bits, and no spare ones behind them.
#[test]
fn the_same_notices() {
    let folder = folder("same");
    let told = decode(&folder, &[], "bits").told();
    assert_eq!(told.matches("\nbits read 1808; ").count(), 1);
    for options in [&LEFT[..], &RIGHT, &["--channel=left", "--format=iec958"]] {
        encode(&folder, options, "plan", "capture");
        let captured = decode(&folder, options, "capture").told();
        assert_eq!(
            captured,
            told.replace("bits read 1808;", "bits read 1805;"),
            "{options:?}"
        );
        let told = decode(&folder, &["--json"], "bits").told();
        let captured = decode(&folder, &[options, &["--json"]].concat(), "capture").told();
        let told = told.replace("{\"bits\":1808,", "{\"bits\":1805,");
        assert_eq!(captured, told, "{options:?}");
    }
    let msb = ["--format", "bits-msb"];
    encode(&folder, &msb, "plan", "msb");
    let reversed: Vec<u8> = folder
        .read("bits")
        .into_iter()
        .map(u8::reverse_bits)
        .collect();
    assert_eq!(folder.read("msb"), reversed);
    assert_eq!(decode(&folder, &msb, "msb").told(), told);
}

/// `show` draws the same, and `line` writes the same.
#[test]
fn the_same_picture_and_line() {
    let folder = folder("picture");
    let show = |options: &[&str], bits: &str| {
        let ran = folder.run(&[&["show", ALL, "--width=80"], options, &[bits]].concat());
        let told = ran.told();
        told.split_once('\n').unwrap().1.to_string()
    };
    let line = |options: &[&str], bits: &str| {
        let ran = folder.run(&[&["line", bits, "-o", "line"], options].concat());
        assert_eq!((ran.status, ran.out.as_slice()), (0, &b""[..]));
        (folder.read("line"), ran.err)
    };
    let drawn = show(&[], "bits");
    let written = line(&[], "bits");
    assert!(written.1.starts_with("8 packets, "));
    for options in [&LEFT[..], &RIGHT, &["--format=bits-msb"]] {
        encode(&folder, options, "plan", "filed");
        assert_eq!(show(options, "filed"), drawn, "{options:?}");
        assert_eq!(line(options, "filed"), written, "{options:?}");
    }
}

/// `scan` lists the circuits of each channel, and where none are listed `decode` and `show` listen to them.
#[test]
fn circuits_of_each_channel() {
    let folder = folder("channel-circuits");
    encode(&folder, &LEFT, "plan", "left");
    let into = [&RIGHT[..], &["--into=left"]].concat();
    encode(&folder, &into, "other", "both");
    let listed = |told: &str| -> Vec<String> {
        let rows = told.lines().skip(1);
        let rows = rows.take_while(|row| !row.starts_with("bits read "));
        rows.map(|row| row[..2].to_string()).collect()
    };
    for (options, found, said) in [
        (&LEFT[..], vec!["7E", "01"], "listening to 7E, 01\n"),
        (&RIGHT, vec!["05"], "listening to 05\n"),
    ] {
        let told = folder.run(&[&["scan", "both"], options].concat()).told();
        assert!(told.contains("\nbits read 1805, circuits "), "{told}");
        assert_eq!(listed(&told), found);
        let ran = folder.run(&[&["decode", "both"], options].concat());
        assert_eq!((ran.status, ran.err.as_str()), (0, said));
        let told = String::from_utf8(ran.out).unwrap();
        let head = told.lines().find(|line| line.starts_with("circuit "));
        let head: Vec<&str> = head.unwrap().split_whitespace().skip(1).collect();
        assert_eq!(head, found);
        let told = folder.run(&[&["show", "both"], options].concat()).told();
        assert!(told.starts_with(said), "{told}");
    }
    let told = folder.run(&["scan", "bits"]).told();
    let captured = folder.run(&[&["scan", "left"], &LEFT[..]].concat()).told();
    assert_eq!(
        captured,
        told.replace("\nbits read 1808,", "\nbits read 1805,")
    );
}

/// Zeros at the end of a capture are not spare bits of a byte: show tells them.
#[test]
fn no_spare_bits_in_a_capture() {
    let folder = folder("spare");
    encode(&folder, &LEFT, "plan", "capture");
    let mut words = words(&folder.read("capture"));
    words.extend([2, 4].repeat(3));
    folder.write("capture", bytes(&words));
    let show = |options: &[&str], bits: &str| {
        let arguments = [&["show", ALL], options, &[bits]].concat();
        folder.run(&arguments).told()
    };
    assert!(show(&[], "bits").contains("\nNo place went wrong.\n"));
    let told = show(&LEFT, "capture");
    assert!(told.contains("\n1 place went wrong:\n"), "{told}");
}

/// Both channels of a noisy capture get a pass of their own, and nothing else in it changes.
#[test]
fn both_channels_of_a_capture() {
    let folder = folder("both");
    let noise = noisy(2000);
    folder.write("noise", bytes(&noise));
    let told = encode(
        &folder,
        &[&LEFT[..], &["--into", "noise"]].concat(),
        "plan",
        "one",
    );
    let keeps = "\nnoise: channel left keeps the user bits of its last 195 words\n";
    assert!(told.ends_with(keeps), "{told}");
    let told = encode(
        &folder,
        &[&RIGHT[..], &["--into=one"]].concat(),
        "other",
        "two",
    );
    let keeps = "\none: channel right keeps the user bits of its last 1395 words\n";
    assert!(told.ends_with(keeps), "{told}");
    assert_eq!(folder.read("noise"), bytes(&noise), "the capture itself");

    encode(&folder, &[], "other", "other.bits");
    let two = words(&folder.read("two"));
    assert_eq!(two.len(), noise.len());
    let filed = [
        bits(&folder.read("bits"), 1805),
        bits(&folder.read("other.bits"), 605),
    ];
    for (number, (word, before)) in two.iter().zip(&noise).enumerate() {
        match filed[number % 2].get(number / 2) {
            Some(bit) => {
                assert_eq!(
                    (user(*word), rest(*word)),
                    (*bit, rest(*before)),
                    "{number}"
                );
                assert!(even(*word), "{number}");
            }
            None => assert_eq!(word, before, "{number}"),
        }
    }

    // Noise behind the bits may hold spoilt frames.
    let start = |options: &[&str], bits: &str| {
        let told = String::from_utf8(decode(&folder, options, bits).out).unwrap();
        let first = told.lines().take_while(|line| !line.is_empty());
        first.map(str::to_string).collect::<Vec<_>>()
    };
    for (options, bits) in [(&LEFT[..], "bits"), (&RIGHT, "other.bits")] {
        let packed = start(&[], bits);
        let captured = start(options, "two");
        assert!(
            packed.len() >= 4 && captured.starts_with(&packed),
            "{captured:?}"
        );
    }
}

/// With both channels filled exactly, each is told as it would be alone.
#[test]
fn each_channel_is_a_channel_of_its_own() {
    let folder = folder("own");
    encode(&folder, &LEFT, "plan", "left");
    let told = encode(
        &folder,
        &[&RIGHT[..], &["--into", "left"]].concat(),
        "other",
        "two",
    );
    assert!(told.contains("keeps the user bits of its last 1200 words"));
    encode(&folder, &[], "other", "other.bits");
    for (options, bits) in [(&LEFT[..], "bits"), (&RIGHT, "other.bits")] {
        let captured = decode(&folder, options, "two").told();
        let packed = decode(&folder, &[], bits).told();
        assert_eq!(notices(&captured), notices(&packed));
    }
    let left: Vec<u32> = words(&folder.read("left")).into_iter().step_by(2).collect();
    let two: Vec<u32> = words(&folder.read("two")).into_iter().step_by(2).collect();
    assert_eq!(two, left);
}

/// Where words carry no preamble, or one that is not ALSA's, channels are by place; where some do, by these.
#[test]
fn captures_without_preambles() {
    let folder = folder("bare");
    encode(&folder, &LEFT, "plan", "left");
    encode(
        &folder,
        &[&RIGHT[..], &["--into", "left"]].concat(),
        "other",
        "two",
    );
    let both = words(&folder.read("two"));
    let told = [&LEFT[..], &RIGHT].map(|options| decode(&folder, options, "two").told());
    let kinds: [fn(usize, u32) -> u32; 4] = [
        |_, word| word & !15,
        |number, word| word & !15 | [3, 5][number % 2],
        |number, word| if number % 192 == 1 { word } else { word & !15 },
        |number, word| if number == 0 { word } else { word & !15 },
    ];
    for kind in kinds {
        let bare: Vec<u32> = (0..).zip(&both).map(|(at, word)| kind(at, *word)).collect();
        folder.write("bare", bytes(&bare));
        for (options, told) in [&LEFT[..], &RIGHT].iter().zip(&told) {
            assert_eq!(&decode(&folder, options, "bare").told(), told);
        }
        // Bits go into the same words as they are read from.
        encode(
            &folder,
            &[&RIGHT[..], &["--into", "bare"]].concat(),
            "plan",
            "again",
        );
        let again = decode(&folder, &RIGHT, "again").told();
        assert_eq!(notices(&again), notices(&told[0]));
    }
}

/// A capture that begins with a right word has its channels by the preambles.
#[test]
fn a_capture_that_begins_with_a_right_word() {
    let folder = folder("begins");
    encode(&folder, &LEFT, "plan", "left");
    encode(
        &folder,
        &[&RIGHT[..], &["--into", "left"]].concat(),
        "other",
        "two",
    );
    let both = words(&folder.read("two"));
    let late = [&[0x4000_0004][..], &both].concat();
    folder.write("late", bytes(&late));
    let told = decode(&folder, &LEFT, "two").told();
    assert_eq!(decode(&folder, &LEFT, "late").told(), told);
    // The right channel has a zero more in front.
    let told = decode(&folder, &RIGHT, "late").told();
    let first = "bit 0: before the first flag, 1 bit\nbit 177: 05, loss 0, Begun\n";
    assert!(told.starts_with(first), "{told}");
    assert!(told.contains("\nbits read 1806; "), "{told}");

    folder.write("late", bytes(&late[..late.len() - 2]));
    encode(
        &folder,
        &[&RIGHT[..], &["--into", "late"]].concat(),
        "plan",
        "again",
    );
    let again = words(&folder.read("again"));
    assert_eq!(rest(again[0]), rest(late[0]));
    assert_eq!(again[1], late[1]);
    let told = decode(&folder, &RIGHT, "again").told();
    assert_eq!(told, decode(&folder, &LEFT, "two").told());
}

/// A capture takes as many bits as it has words of the channel; one word less is refused, and nothing is written.
#[test]
fn captures_that_are_too_short() {
    let folder = folder("short");
    let noise = noisy(1806);
    folder.write("old", "as before");
    folder.write("noise", "");
    let into = |options: &[&str], words: usize, bits: &str| {
        folder.write("noise", bytes(&noise[..words]));
        folder.run(&[&["encode", "plan", "--into=noise", "-o", bits], options].concat())
    };
    let names = folder.names();
    for (options, words, room) in [
        (&LEFT[..], 3608, 1804),
        (&RIGHT, 3608, 1804),
        (&RIGHT, 3609, 1804),
        (&LEFT, 1, 1),
        (&RIGHT, 1, 0),
    ] {
        let channel = if options.len() == 2 { "left" } else { "right" };
        let message = format!(
            "aes18: noise: expected room for 1805 bits, and channel {channel} takes {room}\n"
        );
        for bits in ["old", "new", "-"] {
            into(options, words, bits).failed(1, &message);
        }
    }
    assert_eq!(folder.read("old"), b"as before");
    assert_eq!(folder.names(), names);
    for (options, words) in [(&LEFT[..], 3609), (&LEFT, 3610), (&RIGHT, 3610)] {
        let ran = into(options, words, "new");
        assert_eq!(ran.status, 0, "{}", ran.err);
        assert!(!ran.err.contains("keeps"), "{}", ran.err);
        assert_eq!(folder.read("new").len(), 4 * words);
        let told = decode(&folder, options, "new").told();
        assert!(told.contains("\nbits read 1805; "), "{told}");
    }
}

/// What stands before an incomplete word is told, then the error with its byte; no file is written.
#[test]
fn captures_that_end_inside_a_word() {
    let folder = folder("cut");
    encode(&folder, &LEFT, "plan", "capture");
    let whole = folder.read("capture");
    let told = decode(&folder, &LEFT, "capture").told();
    for part in 1..4 {
        folder.write("cut", [&whole[..], &whole[..part]].concat());
        let place = whole.len();
        let message = format!(
            "cut: byte {place}: expected a word of 4 bytes, and the capture ends after {part} of them\n"
        );
        let error = format!("aes18: {message}");
        let ran = decode(&folder, &LEFT, "cut");
        assert_eq!((ran.status, ran.err.as_str()), (1, error.as_str()));
        assert_eq!(String::from_utf8(ran.out).unwrap(), told);
        let ran = folder.run(&[&["decode", "cut"], &LEFT[..]].concat());
        let found = format!("listening to 7E, 01\n{error}");
        assert_eq!((ran.status, ran.err), (1, found), "told all the same");
        let ran = folder.run(&[&["scan", "cut"], &LEFT[..]].concat());
        assert_eq!((ran.status, ran.err.as_str()), (1, error.as_str()));
        let listed = String::from_utf8(ran.out).unwrap();
        assert!(
            listed.contains("\nbits read 1805, circuits 2; "),
            "{listed}"
        );
        let ran = folder.run(&[&["show", ALL], &LEFT[..], &["cut"]].concat());
        assert_eq!((ran.status, ran.err.as_str()), (1, error.as_str()));
        let drawn = String::from_utf8(ran.out).unwrap();
        assert!(drawn.contains("\nNo place went wrong.\n"), "{drawn}");
        let cases: [&[&str]; 3] = [
            &["show", ALL, "--svg=new", "cut"],
            &["line", "cut", "-o", "new"],
            &["encode", "plan", "--into=cut", "-o", "new"],
        ];
        for arguments in cases {
            folder.run(&[arguments, &LEFT].concat()).failed(1, &error);
        }
        assert!(!folder.path("new").exists());
    }
    // Where not all is shown, not all is read.
    let shown = folder.run(&[&["show", ALL, "--to=100"], &LEFT[..], &["cut"]].concat());
    assert_eq!(shown.status, 0, "{}", shown.err);
}

/// Captures and bits of every length modulo 8, in every format: the last chunk has 1 to 8 bits.
#[test]
fn odd_lengths() {
    let folder = Folder::new("lengths");
    for n in 256..=264 {
        let plan = format!("circuits 01\noffer 0 0 0 \"odd\"\nblock {n} 256 system 15 0\n");
        folder.write("plan", plan);
        encode(&folder, &[], "plan", "bits");
        let told = decode(&folder, &[], "bits").told();
        let packed = 8 * u64::div_ceil(n, 8);
        for options in [&LEFT[..], &RIGHT] {
            encode(&folder, options, "plan", "capture");
            let captured = decode(&folder, options, "capture").told();
            let told = told.replace(&format!("bits read {packed};"), &format!("bits read {n};"));
            assert_eq!(captured, told);
        }
    }
}

/// A flag that ends with the capture's last bit closes its frame, wherever in a byte that is.
#[test]
fn frames_that_end_with_the_capture() {
    let folder = folder("last");
    encode(&folder, &LEFT, "plan", "capture");
    let whole = folder.read("capture");
    let count = |told: &str| told.lines().filter(|line| line.starts_with("bit ")).count();
    // The places behind the frames of the plan.
    for (number, place) in [200, 392, 584, 706, 804, 902, 1030, 1281]
        .iter()
        .enumerate()
    {
        folder.write("cut", &whole[..8 * place]);
        let told = decode(&folder, &LEFT, "cut").told();
        assert_eq!(count(&told), number + 1);
        let last = format!("\nbits read {place}; ");
        assert!(told.contains(&last), "{told}");
        folder.write("cut", &whole[..8 * place - 8]);
        let ran = decode(&folder, &LEFT, "cut");
        let told = String::from_utf8(ran.out).unwrap();
        assert_eq!(count(&told), number);
    }
}

/// Input that comes byte by byte is told as the file is, in every format.
#[test]
fn byte_by_byte() {
    let folder = folder("bytes");
    for options in [&[][..], &["--format=bits-msb"], &LEFT, &RIGHT] {
        encode(&folder, options, "plan", "filed");
        let filed = folder.read("filed");
        let told = decode(&folder, options, "filed").told();
        let mut child = folder
            .command(&[&["decode", ALL, "-"], options].concat())
            .stdin(Stdio::piped())
            .stdout(Stdio::piped())
            .spawn()
            .unwrap();
        let mut stdin = child.stdin.take().unwrap();
        for byte in filed {
            stdin.write_all(&[byte]).unwrap();
        }
        drop(stdin);
        let output = child.wait_with_output().unwrap();
        assert_eq!(String::from_utf8(output.stdout).unwrap(), told);
    }
}

/// A notice is told when the word that ends its frame has come, or at most seven later ones.
#[test]
fn piped_captures_are_told_as_they_come() {
    let folder = folder("piped");
    encode(&folder, &RIGHT, "plan", "capture");
    let capture = folder.read("capture");
    let mut child = folder
        .command(&[&["decode", ALL, "-"], &RIGHT[..]].concat())
        .stdin(Stdio::piped())
        .stdout(Stdio::piped())
        .spawn()
        .unwrap();
    let mut stdin = child.stdin.take().unwrap();
    let mut out = BufReader::new(child.stdout.take().unwrap());
    let mut sent = 0;
    for place in [200, 392, 584, 706] {
        let to = 8 * (place + 7);
        stdin.write_all(&capture[sent..to]).unwrap();
        sent = to;
        let mut line = String::new();
        out.read_line(&mut line).unwrap();
        assert!(line.starts_with(&format!("bit {place}: ")), "{line}");
    }
    drop(stdin);
    assert!(child.wait().unwrap().success());
}

/// A capture may come from the standard input, and go to the standard output.
#[test]
fn a_capture_through_pipes() {
    let folder = folder("pipes");
    let noise = bytes(&noisy(1900));
    folder.write("noise", &noise);
    encode(
        &folder,
        &[&LEFT[..], &["--into=noise"]].concat(),
        "plan",
        "file",
    );
    let arguments = [&["encode", "plan", "--into", "-", "-o", "-"], &LEFT[..]].concat();
    let ran = folder.run_with(&arguments, &noise);
    assert_eq!(ran.status, 0, "{}", ran.err);
    assert_eq!(ran.out, folder.read("file"));
    let keeps = "\nstandard input: channel left keeps the user bits of its last 95 words\n";
    assert!(ran.err.ends_with(keeps), "{}", ran.err);
}

/// Where no frame is found, the warning tells what other formats have.
#[test]
fn files_in_another_format() {
    let folder = folder("wrong");
    let formats: [(&[&str], &str); 4] = [
        (&["--format=bits"], "--format bits"),
        (&["--format=bits-msb"], "--format bits-msb"),
        (&LEFT, "--format iec958 --channel left"),
        (&RIGHT, "--format iec958 --channel right"),
    ];
    for (filed, name) in formats {
        encode(&folder, filed, "plan", "filed");
        let warning = format!("aes18: warning: filed: no frame found\n  8 frames with {name}\n");
        for (read, _) in formats.iter().filter(|(read, _)| *read != filed) {
            let ran = decode(&folder, read, "filed");
            assert!(ran.err.starts_with(&warning), "{}", ran.err);
            let ran = folder.run(&[&["show", ALL, "filed"], *read].concat());
            assert!(ran.err.starts_with(&warning), "{}", ran.err);
            let ran = folder.run(&[&["line", "filed", "-o", "line"], *read].concat());
            assert!(ran.err.starts_with(&warning), "{}", ran.err);
            let ran = folder.run(&[&["scan", "filed"], *read].concat());
            assert!(ran.err.starts_with(&warning), "{}", ran.err);
        }
        assert_eq!(
            decode(&folder, filed, "filed")
                .told()
                .matches("7E, ")
                .count(),
            6
        );
    }
    // Two other channels, and standard input, which cannot be read again.
    encode(&folder, &LEFT, "plan", "left");
    encode(
        &folder,
        &[&RIGHT[..], &["--into=left"]].concat(),
        "other",
        "two",
    );
    let ran = decode(&folder, &["--format=bits-msb"], "two");
    let found = "\
aes18: warning: two: no frame found
  8 frames with --format iec958 --channel left
  4 frames with --format iec958 --channel right
";
    assert_eq!((ran.status, ran.err.as_str()), (0, found));
    for subcommand in ["decode", "scan", "show"] {
        let quiet = [subcommand, "-q", "--format=bits-msb", "two"];
        assert_eq!(folder.run(&quiet).err, "");
    }
    let ran = folder.run_with(&["decode", ALL, "-"], &folder.read("two"));
    let none = "aes18: warning: standard input: no frame found\n";
    assert_eq!((ran.status, ran.err.as_str()), (0, none));
    folder.write("zeros", [0; 1000]);
    let ran = decode(&folder, &LEFT, "zeros");
    let none = "aes18: warning: zeros: no frame found, nor in another format or channel\n";
    assert_eq!((ran.status, ran.err.as_str()), (0, none));
}

/// A part without frames of a pass that has some gets no warning, nor do frames of circuits that are not listed.
#[test]
fn no_warning_where_frames_are() {
    let folder = folder("frames");
    let shown = ["show", "--circuits=01", "--from=700", "--to=900", "bits"];
    folder.run(&shown).told();
    folder.run(&["decode", "--circuits=33", "bits"]).told();
}

/// The same words for an empty file everywhere.
#[test]
fn empty_files() {
    let folder = folder("empty");
    folder.write("empty", "");
    let cases: [(&[&str], &str); 10] = [
        (&["scan"], "user bits"),
        (&["scan", "--format=iec958"], "user bits"),
        (&["decode", ALL], "user bits"),
        (&["decode", ALL, "--format=bits-msb"], "user bits"),
        (&["decode", ALL, "--format=iec958"], "user bits"),
        (&["decode", ALL, "--line"], "a serial line"),
        (&["show", ALL], "user bits"),
        (&["show", ALL, "--svg=new"], "user bits"),
        (&["line", "-o", "new"], "user bits"),
        (
            &["encode", "plan", "-o", "new", "--format=iec958", "--into"],
            "a capture",
        ),
    ];
    for (arguments, expected) in cases {
        for (file, name) in [("empty", "empty"), ("-", "standard input")] {
            let message = format!("aes18: {name}: expected {expected}, not an empty file\n");
            folder
                .run(&[arguments, &[file]].concat())
                .failed(1, &message);
        }
    }
    for arguments in [&["decode"][..], &["show"], &["decode", "--format=iec958"]] {
        let message = "aes18: empty: expected user bits, not an empty file\n";
        folder
            .run(&[arguments, &["empty"]].concat())
            .failed(1, message);
    }
    assert!(!folder.path("new").exists());
}

/// A capture without a word of the channel is refused as an empty file is, and nothing is written; that of the other channel is read.
#[test]
fn captures_without_the_channel() {
    let folder = folder("no-channel");
    folder.write("left", bytes(&[0x2; 100]));
    folder.write("right", bytes(&[0x4; 100]));
    // Longer than is read at once, and shorter than a word.
    folder.write("long", bytes(&[0x4; 50_000]));
    folder.write("short", [0x4; 3]);
    folder.write("cut", [&[0x4; 4][..], &[0; 2]].concat());
    let names = folder.names();
    let none = "expected user bits, and channel";
    let part = "expected a word of 4 bytes, and the capture ends after";
    for (file, options, message) in [
        ("left", &RIGHT[..], format!("{none} right has no word")),
        ("right", &LEFT, format!("{none} left has no word")),
        ("long", &LEFT, format!("{none} left has no word")),
        ("short", &RIGHT, format!("byte 0: {part} 3 of them")),
        ("cut", &LEFT, format!("byte 4: {part} 2 of them")),
    ] {
        let readers: [&[&str]; 7] = [
            &["scan"],
            &["decode"],
            &["decode", ALL, "--json"],
            &["show", ALL],
            &["show", "--svg=new"],
            &["line", "-o", "new"],
            &["line", "--strict", "-o", "-"],
        ];
        for reader in readers {
            let ran = folder.run(&[reader, options, &[file]].concat());
            ran.failed(1, &format!("aes18: {file}: {message}\n"));
        }
    }
    assert_eq!(folder.names(), names);
    for (file, options) in [("left", &LEFT[..]), ("right", &RIGHT)] {
        let ran = decode(&folder, options, file);
        assert_eq!(ran.status, 0, "{}", ran.err);
        assert!(String::from_utf8(ran.out)
            .unwrap()
            .contains("\nbits read 100; "));
    }
}

/// A file without frames may have no word of a channel where it is looked for frames in other formats.
#[test]
fn other_formats_without_a_word() {
    let folder = folder("no-word");
    for (file, words) in [("left", bytes(&[0x2; 100])), ("short", vec![0; 3])] {
        folder.write(file, words);
        let ran = decode(&folder, &[], file);
        let none = "no frame found, nor in another format or channel";
        let warning = format!("aes18: warning: {file}: {none}\n");
        assert_eq!((ran.status, ran.err), (0, warning));
    }
}

#[test]
fn wrong_usage() {
    let folder = folder("usage-captures");
    encode(&folder, &LEFT, "plan", "capture");
    let names = folder.names();
    let channel = "--channel goes with --format iec958 only";
    let format = "--format: expected bits, bits-msb or iec958, not 'wav'";
    let into = "expected --format iec958 with --into";
    let cases: [(&[&str], &str); 22] = [
        (&["decode", ALL, "--channel=left", "bits"], channel),
        (&["scan", "--channel=left", "bits"], channel),
        (&["scan", "--format=wav", "bits"], format),
        (
            &["scan", "--format=bits", "--format=bits", "bits"],
            "--format is given twice",
        ),
        (
            &["decode", "--format=iec958", "--channel=left", "--channel"],
            "--channel is given twice",
        ),
        (
            &["encode", "plan", "--into=a", "--into=a", "-o", "new"],
            "--into is given twice",
        ),
        (&["show", ALL, "--channel=left", "bits"], channel),
        (&["line", "--channel=right", "bits", "-o", "new"], channel),
        (
            &[
                "encode",
                "--format=bits",
                "--channel=left",
                "plan",
                "-o",
                "new",
            ],
            channel,
        ),
        (&["decode", ALL, "--format=wav", "bits"], format),
        (&["show", ALL, "--format", "wav", "bits"], format),
        (&["line", "--format", "wav", "bits", "-o", "new"], format),
        (&["encode", "--format=wav", "plan", "-o", "new"], format),
        (
            &["decode", ALL, "--format=iec958", "--channel=2", "bits"],
            "--channel: expected left or right, not '2'",
        ),
        (
            &["decode", ALL, "--line", "--format=bits", "bits"],
            "--format does not go with --line",
        ),
        (
            &["decode", ALL, "--channel=left", "--line", "bits"],
            "--channel does not go with --line",
        ),
        (&["encode", "plan", "--into=capture", "-o", "new"], into),
        (
            &[
                "encode",
                "plan",
                "--format=bits-msb",
                "--into=capture",
                "-o",
                "new",
            ],
            into,
        ),
        (
            &[
                "encode",
                "plan",
                "--format=iec958",
                "--into=capture",
                "-o",
                "./capture",
            ],
            "expected another file for BITS than CAPTURE",
        ),
        (
            &[
                "encode",
                "plan",
                "--format=iec958",
                "--into=capture",
                "-o",
                "./plan",
            ],
            "expected another file for BITS than PLAN",
        ),
        (
            &["encode", "-", "--format=iec958", "--into=-", "-o", "new"],
            "expected another input for CAPTURE than PLAN",
        ),
        (
            &["encode", "plan", "-o", "new", "--into"],
            "the option --into needs a capture",
        ),
    ];
    for (arguments, message) in cases {
        let message = format!("aes18: {message}\nSee aes18 {} --help.\n", arguments[0]);
        folder.run(arguments).failed(2, &message);
    }
    assert_eq!(folder.names(), names);
}

#[test]
fn captures_that_cannot_be_read() {
    let folder = folder("unreadable");
    let names = folder.names();
    let into = ["encode", "plan", "--format=iec958", "-o", "new", "--into"];
    let none = "aes18: none: No such file or directory (os error 2)\n";
    folder.run(&[&into[..], &["none"]].concat()).failed(1, none);
    let a_folder = "aes18: .: expected a file, not a folder\n";
    folder
        .run(&[&into[..], &["."]].concat())
        .failed(1, a_folder);
    assert_eq!(folder.names(), names);
}
