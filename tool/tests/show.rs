//! Runs `aes18 show` on passes made by the library and torn, or written frame by frame.

use std::fs::{self, File};
use std::path::{Path, PathBuf};
use std::process::{Command, Stdio};

use aes18::{Circuit, Sender, SystemPacket, SENDER_STORE};

/// User bits, one in each place.
type Bits = Vec<u8>;

/// The bits of a block.
const N: u64 = 256;

/// An empty folder of that name.
fn folder(name: &str) -> PathBuf {
    let folder = Path::new(env!("CARGO_TARGET_TMPDIR")).join(format!("show-{name}"));
    let _ = fs::remove_dir_all(&folder);
    fs::create_dir_all(&folder).unwrap();
    folder
}

/// `aes18 show` in a folder, with what the environment says of terminals left out.
fn show(folder: &Path, arguments: &[&str]) -> Command {
    let mut command = Command::new(env!("CARGO_BIN_EXE_aes18"));
    command.arg("show").args(arguments).current_dir(folder);
    command.env_remove("COLUMNS").env_remove("NO_COLOR");
    command.stdin(Stdio::null());
    command
}

/// What a run that succeeds prints.
fn printed(folder: &Path, arguments: &[&str]) -> String {
    output(&mut show(folder, arguments))
}

/// The same of a pass without frames that pass.
fn printed_without_frames(folder: &Path, arguments: &[&str]) -> String {
    let warning = "aes18: warning: pass: no frame found, nor in another format or channel\n";
    output_with(&mut show(folder, arguments), warning)
}

fn output(command: &mut Command) -> String {
    output_with(command, "")
}

/// What a run prints that succeeds and says this on the standard error.
fn output_with(command: &mut Command, said: &str) -> String {
    let output = command.output().unwrap();
    let error = String::from_utf8(output.stderr).unwrap();
    assert_eq!((output.status.code(), error.as_str()), (Some(0), said));
    String::from_utf8(output.stdout).unwrap()
}

/// Files bits, eight in a byte, the first in the lowest bit.
fn file(folder: &Path, bits: &[u8]) {
    let byte = |eight: &[u8]| eight.iter().rev().fold(0, |byte, bit| byte << 1 | bit);
    let bytes: Vec<u8> = bits.chunks(8).map(byte).collect();
    fs::write(folder.join("pass"), bytes).unwrap();
}

/// The bits of nine blocks: a system packet and a message; a message of three packets in a block each, a short one beside the last;
/// three blocks without frames; a message; a message.
fn blocks() -> Bits {
    let circuit = |address, extension| Circuit { address, extension };
    let mut sender = Sender::list(&[circuit(0x01, None), circuit(0x02, Some(0x07))]).unwrap();
    let mut store = vec![0; SENDER_STORE];
    let mut bits = Bits::new();
    for number in 0..9 {
        let offered: &[(u64, &[u8])] = match number {
            0 => &[(0, b"telemetry")],
            1 => &[(1, b"a message that needs three packets of its own")],
            3 => &[(0, b"!")],
            7 | 8 => &[(0, b"battery")],
            _ => &[],
        };
        for (circuit, message) in offered {
            sender.offer(&mut store, *circuit, 1, 0, message).unwrap();
        }
        let system = SystemPacket {
            enable: 15,
            code: 1,
            information: b"\x01\x02\x03",
        };
        let mut block = [0; N as usize / 8];
        let system = (number == 0).then_some(system);
        sender.block(&store, N, N, system, &mut block).unwrap();
        bits.extend((0..N as usize).map(|bit| block[bit / 8] >> (bit % 8) & 1));
    }
    bits
}

/// The blocks with one bit of block 2's frame wrong, twelve ones written into block 7's frame, and the last 20 bits of block 7 missing.
fn torn() -> Bits {
    let mut bits = blocks();
    bits[2 * 256 + 100] ^= 1;
    bits[7 * 256 + 40..7 * 256 + 52].fill(1);
    bits.drain(8 * 256 - 20..8 * 256);
    bits
}

/// Flags and, between them, the frames of these packets, each with a right FCS.
fn frames(packets: &[&[u8]]) -> Bits {
    let mut bits = bits_of(&[0x7E]);
    for packet in packets {
        let fcs = fcs(packet).to_le_bytes();
        bits.extend(stuffed(&bits_of(&[packet, &fcs[..]].concat())));
        bits.extend(bits_of(&[0x7E]));
    }
    bits
}

fn bits_of(bytes: &[u8]) -> Bits {
    let bits = |byte: &u8| [0, 1, 2, 3, 4, 5, 6, 7].map(|bit| byte >> bit & 1);
    bytes.iter().flat_map(bits).collect()
}

fn stuffed(bits: &[u8]) -> Bits {
    let mut stuffed = Bits::new();
    for bit in bits {
        stuffed.push(*bit);
        if stuffed.ends_with(&[1; 5]) {
            stuffed.push(0);
        }
    }
    stuffed
}

fn fcs(packet: &[u8]) -> u16 {
    let step = |register: u16, bit: u8| match (register ^ u16::from(bit)) & 1 {
        1 => register >> 1 ^ 0x8408,
        _ => register >> 1,
    };
    !bits_of(packet).into_iter().fold(0xFFFF, step)
}

/// The start tags of an XML text. Fails unless it is one element in which each start tag has its end tag, each attribute's value stands in
/// quotes and each & begins an entity.
fn elements(text: &str) -> Vec<&str> {
    let (mut found, mut open, mut rest) = (Vec::new(), Vec::new(), text.trim_end());
    while let Some(tag) = rest.strip_prefix('<') {
        let (tag, behind) = tag.split_once('>').expect("a tag's end");
        match tag.strip_prefix('/') {
            Some(name) => assert_eq!(open.pop(), Some(name)),
            None => {
                found.push(tag);
                let name = start_tag(tag.trim_end_matches('/'));
                open.extend((!tag.ends_with('/')).then_some(name));
            }
        }
        let words = behind.split('<').next().unwrap_or("");
        assert!(words.split('&').skip(1).all(is_entity), "{words}");
        rest = &behind[words.len()..];
        assert_eq!(open.is_empty(), rest.is_empty(), "one element");
    }
    assert_eq!((rest, open), ("", vec![]));
    found
}

/// The name of a start tag, whose attributes are checked.
fn start_tag(tag: &str) -> &str {
    let (name, attributes) = tag.split_once(' ').unwrap_or((tag, ""));
    assert!(!name.is_empty() && name.chars().all(|c| c.is_ascii_alphanumeric()));
    let parts: Vec<&str> = attributes.trim_end().split('"').collect();
    let (last, pairs) = parts.split_last().unwrap();
    assert!(last.is_empty() && pairs.len() % 2 == 0, "{tag}");
    assert!(
        pairs.iter().step_by(2).all(|name| name.ends_with('=')),
        "{tag}"
    );
    name
}

fn is_entity(text: &str) -> bool {
    ["amp;", "lt;", "gt;"]
        .iter()
        .any(|entity| text.starts_with(entity))
}

/// What `aes18 show` prints of the torn pass with 4 bits to a character.
const TORN: &str = "\
pass: blocks of 256 bits, 4 to a character
   block
       0 ..S================.0============================..-------------
       1 ..1=========================================..------------------
       2 ..!!!!!!!!!!!!!!!!!!!!!!!!!!!!!!!!!!!!!!!!!!..------------------
       3 ..0============.^1xxxxxxxxxxxxxxxxxxxxxxxxxxxxxxxxxxxxxxx..-----
                         ^1 lost of circuit 1
       4 ..--------------------------------------------------------------
         ... 2 rows like this
       7 ..~~~~~~~~~~~~~~~~~~~~~~~~..-------------------------------..^0=
                                                   1 lost of circuit 0^
       8 =====================..------------------------------------

0  circuit 0 (01)
1  circuit 1 (02:07)
S  system packets                     1
E  elsewhere                          0
M  malformed                          0
!  spoilt                             1
~  bits in no frame                 264
~  before the first flag              0
.  flags                             17
-  closing ones                    1232
   stuffed zeros                      4
^  packets lost before the frame that begins here, or known only modulo 8
=  the frame goes on; x where it is an orphan or wrong

circuit                    01            02:07
packets                     3                2
copies                      0                0
lost                        1                1
modulo 8                    0                0
begun                       0                1
held                        0                0
messages                    3                0
bytes                      17                0
dropped                     0                1
orphans                     0                1
wrong                       0                0

5 places went wrong:
  block 2, bits 520 to 687: in no frame, 168 bits
  block 2, bits 520 to 687: Spoilt
  block 3, bits 833 to 993: 02:07, loss 1, message dropped, Orphan
  block 7, bits 1800 to 1895: in no frame, 96 bits
  block 7, bits 2036 to 2131: 01, loss 1, Whole, length 7
No trace is left by bits missing altogether, dropouts to flags and
dropouts to ones behind a flag up to its block's end.
";

const BLOCKS: [&str; 4] = ["--circuits", "01,02:07", "--block", "256"];

#[test]
fn a_torn_pass() {
    let folder = folder("torn");
    file(&folder, &torn());
    let arguments = [&BLOCKS[..], &["--width", "73", "pass"]].concat();
    assert_eq!(printed(&folder, &arguments), TORN);
}

/// The same from the standard input, with the width from the environment.
#[test]
fn standard_input() {
    let folder = folder("stdin");
    file(&folder, &torn());
    let mut command = show(&folder, &[&BLOCKS[..], &["-"]].concat());
    command
        .env("COLUMNS", "73")
        .stdin(File::open(folder.join("pass")).unwrap());
    assert_eq!(
        output(&mut command),
        TORN.replace("pass: ", "standard input: ")
    );
}

#[test]
fn a_pass_that_came_whole() {
    let folder = folder("whole");
    file(&folder, &blocks());
    let arguments = [&BLOCKS[..], &["--width", "73", "pass"]].concat();
    let text = printed(&folder, &arguments);
    assert!(
        text.contains("\n\nNo place went wrong.\nNo trace "),
        "{text}"
    );
    let rows: String = text
        .lines()
        .skip(2)
        .take_while(|line| !line.is_empty())
        .collect();
    assert!(!rows.contains(['!', '~', '^', 'x', 'M']), "{text}");
}

/// Every kind of notice, in rows of 1000 bits.
#[test]
fn every_kind() {
    let folder = folder("kinds");
    let wrong = b"\x01\x80\x05only";
    let whole = b"\x01\x84\x06all of";
    let orphan = b"\x01\x48tail";
    let begun = b"\x01\x8C\x10\x20sixteen bytes.";
    let held = b"\x01\x10sixteen of these";
    let system = b"\xFF\xCF\x31!";
    let elsewhere = b"\x01\xA0\x09\x00";
    let malformed = b"\xFF\x80segment";
    let packets: [&[u8]; 10] = [
        wrong, whole, whole, whole, orphan, begun, held, system, elsewhere, malformed,
    ];
    file(&folder, &frames(&packets));
    let text = printed(&folder, &["--circuits", "01", "--width", "100", "pass"]);
    assert_eq!(text, KINDS);
    let svg = printed(&folder, &["--circuits", "01", "--svg", "-", "pass"]);
    let legend = "packets 5, copies 2, begun 1, held 1, messages 1, bytes 6, orphans 1, wrong 1";
    assert!(svg.contains(&format!(">circuit 0 (01): {legend}</text>")));
    assert!(svg.contains(">bits 0 to 994, in rows of 1000 bits; stuffed zeros: 3</text>"));
    for (title, zeros) in [
        ("bits 8 to 79: 01, loss 0, Wrong", "0 stuffed zeros"),
        ("code 3, length 1", "2 stuffed zeros"),
        ("bits 898 to 986: Malformed", "1 stuffed zero"),
    ] {
        let title = format!("{title}; {zeros}</title>");
        assert_eq!(svg.matches(&title).count(), 1, "{title}");
    }
}

const KINDS: &str = "\
pass: rows of 1000 bits, 11 to a character
     bit
       0 0xxxxxxx0=======0========0========0xxxxx0===============0==============S====E====M========.

0  circuit 0 (01)
S  system packets                     1
E  elsewhere                          1
M  malformed                          1
!  spoilt                             0
~  bits in no frame                   0
~  before the first flag              0
.  flags                             11
-  closing ones                       0
   stuffed zeros                      3
^  packets lost before the frame that begins here, or known only modulo 8
=  the frame goes on; x where it is an orphan or wrong

circuit                    01
packets                     5
copies                      2
lost                        0
modulo 8                    0
begun                       1
held                        1
messages                    1
bytes                       6
dropped                     0
orphans                     1
wrong                       1

4 places went wrong:
  bits 8 to 79: 01, loss 0, Wrong
  bits 376 to 439: 01, loss 0, Orphan
  bits 898 to 986: Malformed
  01: open at the end, 30 of 32 bytes, begun by the frame before bit 616
No trace is left by bits missing altogether, dropouts to flags and,
without --block, dropouts to ones behind a flag.
";

#[test]
fn a_range() {
    let folder = folder("range");
    file(&folder, &torn());
    let range = ["--from", "600", "--to", "1000", "--width", "73", "pass"];
    let text = printed(&folder, &[&BLOCKS[..], &range].concat());
    let rows: Vec<&str> = text.lines().take(5).collect();
    let [_, _, second, third, note] = rows[..] else {
        panic!("{text}");
    };
    assert_eq!(
        second,
        "       2                       !!!!!!!!!!!!!!!!!!!!!!..------------------"
    );
    assert_eq!(
        third,
        "       3 ..0============.^1xxxxxxxxxxxxxxxxxxxxxxxxxxxxxxxxxxxxxxx."
    );
    assert_eq!(note, "                         ^1 lost of circuit 1");
    let places = "\n3 places went wrong:\n  block 2, bits 520 to 687: in no frame, 168 bits\n";
    assert!(text.contains(places), "{text}");
    assert!(
        text.contains("\n   stuffed zeros                      2\n"),
        "{text}"
    );
}

#[test]
fn many_places() {
    let folder = folder("many");
    let mut bits = bits_of(&[0x7E]);
    for _ in 0..50 {
        bits.extend(bits_of(&[0, 0, 0, 0, 0x7E]));
    }
    file(&folder, &bits);
    let text = printed_without_frames(&folder, &["--circuits", "01", "pass"]);
    let first = "\n51 places went wrong:\n  bits 0 to 2007: in no frame, 2008 bits\n  bits 8 to 39: Spoilt\n";
    let last = "\n  bits 1528 to 1559: Spoilt\n  and 11 more (--all lists them)\nNo trace ";
    assert!(text.contains(first) && text.contains(last), "{text}");
    let text = printed_without_frames(&folder, &["--circuits", "01", "--all", "pass"]);
    assert!(
        text.contains("\n  bits 1968 to 1999: Spoilt\nNo trace "),
        "{text}"
    );
    assert_eq!(text.matches(": Spoilt\n").count(), 50);
}

/// The rows of a long body are folded.
#[test]
fn a_long_body() {
    let folder = folder("long");
    file(
        &folder,
        &bits_of(&[&[0x7E], &[0; 100_000][..], &[0x7E]].concat()),
    );
    let text = printed_without_frames(&folder, &["--circuits", "01", "pass"]);
    let rows: Vec<&str> = text
        .lines()
        .skip(2)
        .take_while(|line| !line.is_empty())
        .collect();
    let row = "!".repeat(67);
    assert_eq!(rows.len(), 3, "{text}");
    assert_eq!(rows[0], format!("       0 {row}"));
    assert_eq!(rows[1], "         ... 799 rows like this");
    assert_eq!(rows[2], "  800000 !.");
}

#[test]
fn colours() {
    let folder = folder("colours");
    file(&folder, &torn());
    let arguments = [&BLOCKS[..], &["--width", "73", "--color", "always", "pass"]].concat();
    let text = printed(&folder, &arguments);
    let row = "       2 \x1b[2m..\x1b[0m\x1b[1;97;41m!!!";
    assert!(text.contains(row), "{text:?}");
    let mut plain = String::new();
    for (place, part) in text.split("\x1b[").enumerate() {
        plain.push_str(if place == 0 {
            part
        } else {
            part.split_once('m').unwrap().1
        });
    }
    assert_eq!(plain, TORN);
}

#[test]
fn svg() {
    let folder = folder("svg");
    file(&folder, &torn());
    let text = printed(
        &folder,
        &[&BLOCKS[..], &["--svg", "pass.svg", "pass"]].concat(),
    );
    let svg = fs::read_to_string(folder.join("pass.svg")).unwrap();
    let report = TORN.find("\n\n").unwrap();
    assert_eq!(
        text,
        format!("pass.svg: {} bytes{}", svg.len(), &TORN[report..])
    );
    let elements = elements(&svg);
    let bars = |class: &str| {
        let start = format!("rect class=\"{class}\" ");
        let bar = |tag: &&&str| tag.starts_with(&start) && !tag.ends_with('/');
        elements.iter().filter(bar).count()
    };
    // The last frame of circuit 0 lies in two rows.
    assert_eq!((bars("c0"), bars("c1"), bars("c1 unused")), (4, 1, 1));
    assert_eq!((bars("system"), bars("spoilt"), bars("void")), (1, 1, 1));
    assert_eq!(
        svg.matches("<path class=\"loss\" d=").count(),
        3,
        "two marks and the legend's"
    );
    assert_eq!(svg.matches("<g ").count(), 9, "nine rows");
    let system =
        ": System, enable bits 15 (all priorities), code 1, length 3; 2 stuffed zeros</title>";
    assert_eq!(svg.matches(system).count(), 1);
    let title = "<title>block 2, bits 520 to 687: Spoilt</title>";
    assert_eq!(svg.matches(title).count(), 1);
    assert!(svg.contains(">1 lost of 02:07</text>"));
    assert!(svg.contains(">circuit 0 (01): packets 3, lost 1, messages 3, bytes 17</text>"));
    assert!(
        svg.contains(">circuit 1 (02:07): packets 2, lost 1, begun 1, dropped 1, orphans 1</text>")
    );
    assert_eq!(
        printed(&folder, &[&BLOCKS[..], &["--svg", "-", "pass"]].concat()),
        svg
    );
}

/// Names with characters that XML does not take as they are.
#[test]
fn svg_of_an_odd_name() {
    let folder = folder("odd");
    file(&folder, &torn());
    fs::rename(folder.join("pass"), folder.join("<a & b>")).unwrap();
    let svg = printed(&folder, &["--circuits", "01", "--svg", "-", "<a & b>"]);
    elements(&svg);
    assert!(svg.contains("<title>&lt;a &amp; b&gt;</title>"));
}

/// The files of a folder with what they hold.
fn files(folder: &Path) -> Vec<(PathBuf, Vec<u8>)> {
    let paths = fs::read_dir(folder)
        .unwrap()
        .map(|entry| entry.unwrap().path());
    let mut files: Vec<_> = paths
        .map(|path| (path.clone(), fs::read(path).unwrap()))
        .collect();
    files.sort();
    files
}

#[test]
fn errors_write_nothing() {
    let folder = folder("errors");
    file(&folder, &torn());
    fs::write(folder.join("old.svg"), "old").unwrap();
    let before = files(&folder);
    let svg = ["--svg", "old.svg"];
    for (status, arguments, message) in [
        (2, &["--circuits", "01"][..], "expected a file of user bits"),
        (2, &["-"], "expected --circuits ADDR[:EXT],..: only a file"),
        (
            2,
            &["--circuits", "1g", "pass"],
            "--circuits: expected a circuit",
        ),
        (
            2,
            &["--circuits", "01", "pass", "pass"],
            "'pass' is one file too many",
        ),
        (
            2,
            &["--circuits", "01", "--block", "255", "pass"],
            "--block: expected a number from 256 to 27000, not '255'",
        ),
        (
            2,
            &["--circuits", "01", "--width", "wide", "pass"],
            "--width: expected a number from 40 to 1000, not 'wide'",
        ),
        (
            2,
            &["--circuits", "01", "--color", "red", "pass"],
            "--color: expected always, never or auto, not 'red'",
        ),
        (
            2,
            &["--circuits", "01", "--from", "-1", "pass"],
            "--from: expected the number of a bit, not '-1'",
        ),
        (
            2,
            &["--circuits", "01", "--from", "9", "--to", "9", "pass"],
            "--from has to be below --to",
        ),
        (
            2,
            &["--circuits", "01", "--frames", "pass"],
            "no option '--frames'",
        ),
        (
            2,
            &["--circuits", "01", "--svg", "./pass", "pass"],
            "expected another file for --svg than BITS",
        ),
        (
            2,
            &["--circuits", "FF", "pass"],
            "--circuits: expected an address from 00 to FE, not FF",
        ),
        (1, &["--circuits", "01", "none"], "none: "),
        (
            1,
            &["--circuits", "01", "--from", "2284", "pass"],
            "pass: ends before bit 2284",
        ),
        (
            1,
            &["--circuits", "01", "--svg", "none/pass.svg", "pass"],
            "none/",
        ),
    ] {
        let svg = &svg[..if arguments.contains(&"--svg") { 0 } else { 2 }];
        let mut command = show(&folder, &[svg, arguments].concat());
        let output = command.output().unwrap();
        let error = String::from_utf8(output.stderr).unwrap();
        assert_eq!(output.status.code(), Some(status), "{error}");
        assert!(error.starts_with(&format!("aes18: {message}")), "{error}");
        assert!(output.stdout.is_empty());
        assert_eq!(files(&folder), before, "{message}");
    }
}

/// Without --circuits the four circuits with most packets are shown, and it is said which.
#[test]
fn circuits_that_are_found() {
    let folder = folder("found");
    file(&folder, &torn());
    let listed = ["--block", "256", "--circuits", "01,02:07", "pass"];
    let found = ["--block", "256", "pass"];
    let heard = "listening to 01, 02:07\n";
    let text = printed(&folder, &found);
    assert_eq!(text, format!("{heard}{}", printed(&folder, &listed)));

    let svg = ["--svg", "pass.svg"];
    let text = printed(&folder, &[&svg[..], &found].concat());
    assert_eq!(text.lines().nth(1), Some(heard.trim_end()), "{text}");
    let output = show(&folder, &[&["--svg", "-"], &found[..]].concat()).output();
    let output = output.unwrap();
    assert_eq!(String::from_utf8(output.stderr).unwrap(), heard);
    assert_eq!(output.stdout, fs::read(folder.join("pass.svg")).unwrap());
}

#[test]
fn no_circuit_to_find() {
    let folder = folder("not-found");
    file(&folder, &frames(&[b"\xFF\xCF\x31!", b"\xFF\x80segment"]));
    let text = printed(&folder, &["pass"]);
    let heard = "listening to no circuit: no packet of one passes\npass: ";
    assert!(text.starts_with(heard), "{text}");
    assert!(
        text.contains("\nS  system packets                     1\n"),
        "{text}"
    );
    assert!(!text.contains("circuit 0"), "{text}");
}

/// No line is wider than the terminal is said to be; 80 columns where nothing says how wide it is.
#[test]
fn widths() {
    let folder = folder("widths");
    file(&folder, &torn());
    let widest = |columns: &[&str], environment: Option<&str>| {
        let mut command = show(&folder, &[&BLOCKS[..], columns, &["pass"]].concat());
        if let Some(columns) = environment {
            command.env("COLUMNS", columns);
        }
        let text = output(&mut command);
        let (rows, report) = text.split_once("\n\n").unwrap();
        let (table, _) = report.split_once("\n\n").unwrap();
        assert!(table.lines().all(|line| line.len() <= 80), "{table}");
        rows.lines().map(str::len).max().unwrap()
    };
    assert_eq!(widest(&[], None), 73, "4 bits to a character");
    assert_eq!(widest(&["--width", "73"], None), 73);
    assert_eq!(
        widest(&["--width", "60"], None),
        52,
        "6 bits to a character"
    );
    assert_eq!(widest(&[], Some("140")), 137, "2 bits to a character");
    assert_eq!(widest(&["--width", "73"], Some("140")), 73);
    assert_eq!(
        widest(&[], Some("39")),
        73,
        "no width that a picture may have"
    );
}

/// The label of a row far in a long file has room too.
#[test]
fn wide_labels() {
    let folder = folder("labels");
    let bytes = 100_000_000 / 8 + 1;
    File::create(folder.join("pass"))
        .and_then(|file| file.set_len(bytes))
        .unwrap();
    let range = ["--circuits", "01", "--from", "99999000", "--width", "49"];
    let text = printed_without_frames(&folder, &[&range[..], &["pass"]].concat());
    let rows: Vec<&str> = text.lines().skip(1).take(3).collect();
    let row = "~".repeat(39);
    assert_eq!(
        rows,
        [
            "      bit".to_string(),
            format!(" 99999000 {row}"),
            "100000000 ~".to_string()
        ]
    );
}

#[test]
fn an_empty_file() {
    let folder = folder("empty");
    file(&folder, &[]);
    for svg in [&[][..], &["--svg", "-"], &["--svg", "picture"]] {
        let mut command = show(&folder, &[svg, &["--circuits", "01", "pass"]].concat());
        let output = command.output().unwrap();
        let error = String::from_utf8(output.stderr).unwrap();
        assert_eq!(output.status.code(), Some(1), "{error}");
        assert_eq!(
            error,
            "aes18: pass: expected user bits, not an empty file\n"
        );
        assert!(output.stdout.is_empty());
    }
    assert!(!folder.join("picture").exists());
}

#[test]
fn help() {
    let text = printed(&folder("help"), &["--help"]);
    for option in [
        "--circuits",
        "--format",
        "--channel",
        "--block",
        "--from",
        "--to",
        "--svg",
        "--width",
        "--color",
        "--all",
        "--strict",
    ] {
        assert!(text.contains(&format!("\n  {option} ")), "{option}");
    }
    assert!(text.contains("\n4,294,967,295, which stands for that many or more"));
}
