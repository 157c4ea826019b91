//! Stuffed zeros: what `aes18 encode` tells of a plan's blocks, and `aes18 show` of their bits.

use super::frames::{bits_of, bytes_of};
use super::runs::Folder;

/// Bits of a block.
const N: u64 = 900;
const CIRCUITS: &str = "--circuits=01,7E:FF,FE";

/// A plan of so many blocks, with messages of bytes that have many ones, each packet in up to three copies; some blocks have a system packet.
fn plan(blocks: u64) -> String {
    let bytes = ["FF", "7E", "F8", "1F", "55", "00"];
    let mut plan = "circuits 01 7E:FF FE\n".to_string();
    for block in 0..blocks {
        let offer = |circuit: u64| {
            let length = 5 + (7 * block + 11 * circuit) % 25;
            let bytes = (0..length).map(|k| bytes[((k * k + block) % 6) as usize]);
            let message: String = bytes.collect();
            let repetition = (block + circuit) % 3;
            format!("offer {circuit} {} {repetition} {message}\n", block % 4)
        };
        plan.extend((0..3).map(offer));
        plan += &match block % 3 {
            0 => format!("block {N} {N} system 15 8 FFFFFF\n"),
            _ => format!("block {N} {N}\n"),
        };
        plan += &format!("block {N} {N}\n").repeat(5);
    }
    plan
}

/// The number that stands before these words.
fn number_before(text: &str, words: &str) -> u64 {
    let (before, _) = text.split_once(words).expect(text);
    let digits = before.rsplit(|c: char| !c.is_ascii_digit()).next();
    digits.unwrap().parse().expect(text)
}

/// What `encode` tells of a plan that it writes to the file `bits`.
fn encoded(folder: &Folder, plan: &str) -> String {
    folder.write("plan", plan);
    let ran = folder.run(&["encode", "plan", "-o", "bits"]);
    assert_eq!(ran.status, 0, "{}", ran.err);
    ran.err
}

/// The stuffed zeros that `show` counts, with these circuits listed.
fn shown(folder: &Folder, circuits: &str, range: &[&str]) -> u64 {
    let show = ["show", circuits, "--width=80", "bits"];
    let text = folder.run(&[&show, range].concat()).told();
    let mut lines = text.lines();
    let figure = lines.find_map(|line| line.strip_prefix("   stuffed zeros"));
    figure.expect(&text).trim().parse().unwrap()
}

/// What encode tells of all blocks, and of each, show counts in their bits, whichever circuits are listed.
#[test]
fn encode_and_show_tell_the_same() {
    let folder = Folder::new("zeros-same");
    let told = encoded(&folder, &plan(12));
    assert!(!told.contains("warning"), "{told}");
    let lines = told.lines().filter(|line| line.contains(": block "));
    let blocks: Vec<u64> = lines.map(|line| number_before(line, " of them ")).collect();
    assert_eq!(blocks.len(), 72);
    let sums = told.lines().last().unwrap();
    let total = number_before(sums, " of them ");
    assert_eq!(blocks.iter().sum::<u64>(), total);
    assert!(total > 500, "{sums}");
    assert_eq!(shown(&folder, CIRCUITS, &[]), total);
    assert_eq!(shown(&folder, "--circuits=05", &[]), total);
    for (number, zeros) in (0..).zip(blocks) {
        let (from, to) = (number * N, (number + 1) * N);
        let range = [format!("--from={from}"), format!("--to={to}")];
        let range = range.each_ref().map(String::as_str);
        assert_eq!(shown(&folder, CIRCUITS, &range), zeros, "block {number}");
    }
}

/// A frame that is shown in part counts whole, and one that is spoilt does not count.
#[test]
fn frames_that_count() {
    let folder = Folder::new("zeros-frames");
    let plan = "circuits 01\noffer 0 0 2 FFFFFFFFFFFFFFFFFFFF\nblock 900 900\n";
    let told = encoded(&folder, plan);
    // Each of the three frames has 13 bytes of packet, 2 of FCS and 16 stuffed zeros, so 136 bits, and a flag behind it.
    assert!(
        told.contains(": 3 frames placed, 440 of 900 bits used, 48 of them stuffed zeros\n"),
        "{told}"
    );
    assert!(
        told.contains("\n1 block, 900 bits, 440 used, 48 of them stuffed zeros (10.9 %); "),
        "{told}"
    );
    assert_eq!(shown(&folder, CIRCUITS, &["--from=143"]), 48);
    assert_eq!(shown(&folder, CIRCUITS, &["--from=144"]), 32);
    assert_eq!(shown(&folder, CIRCUITS, &["--to=296"]), 32);
    assert_eq!(shown(&folder, CIRCUITS, &["--to=297"]), 48);
    let mut bits = bits_of(&folder.read("bits"));
    bits[160] ^= true;
    folder.write("bits", bytes_of(&bits));
    assert_eq!(shown(&folder, CIRCUITS, &[]), 32);
}

/// The picture tells the zeros of each frame, and of all of them.
#[test]
fn titles() {
    let folder = Folder::new("zeros-titles");
    let told = encoded(&folder, &plan(3));
    let total = number_before(told.lines().last().unwrap(), " of them ");
    let block = format!("--block={N}");
    let svg = ["show", CIRCUITS, &block, "--svg=-", "bits"];
    let picture = folder.run(&svg).told();
    let titles = picture
        .lines()
        .filter(|line| line.contains(" stuffed zero"));
    let titles: Vec<&str> = titles.filter(|line| line.contains("<title>")).collect();
    let zeros = titles
        .iter()
        .map(|line| number_before(line, " stuffed zero"));
    assert_eq!(zeros.sum::<u64>(), total);
    let placed = told.lines().filter(|line| line.contains(": block "));
    let placed = placed.map(|line| number_before(line, " frame"));
    assert_eq!(placed.sum::<u64>() + 1, titles.len() as u64);
    assert!(picture.contains(&format!(" bits; stuffed zeros: {total}</text>")));
}

/// No block at all, no stuffed zero, one, and some.
#[test]
fn words_of_the_sums() {
    let folder = Folder::new("zeros-words");
    let enable = "; enable bits in force 15 (all priorities)\n";
    for (steps, sums) in [
        ("", "0 blocks, 0 bits"),
        (
            "block 256 256\n",
            "1 block, 256 bits, 8 used, 0 of them stuffed zeros",
        ),
        (
            "offer 0 2 0 5D5D5D5D\nblock 256 256\n",
            "1 block, 256 bits, 89 used, 1 of them a stuffed zero (1.1 %)",
        ),
        (
            "offer 0 2 0 CCCCCCCC\nblock 256 256\nblock 256 256\n",
            "2 blocks, 512 bits, 99 used, 3 of them stuffed zeros (3.0 %)",
        ),
    ] {
        let told = encoded(&folder, &format!("circuits 01\n{steps}"));
        assert!(told.ends_with(&format!("{sums}{enable}")), "{told}");
    }
}

/// A share that would be rounded to nothing is told as less than a tenth.
#[test]
fn a_small_share() {
    let folder = Folder::new("zeros-share");
    for (blocks, used, share) in [(240, 2001, "less than 0.1 %"), (239, 1993, "0.1 %")] {
        let blocks = "block 256 256\n".repeat(blocks);
        let plan = format!("circuits 01\noffer 0 2 0 5D5D5D5D\n{blocks}");
        let told = encoded(&folder, &plan);
        let sums = format!(", {used} used, 1 of them a stuffed zero ({share}); ");
        assert!(told.contains(&sums), "{told}");
    }
}
