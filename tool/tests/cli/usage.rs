//! Help and wrong usage: status 2 and what was expected, in the same words for every subcommand.

use super::runs::Folder;

const SUBCOMMANDS: [&str; 5] = ["encode", "decode", "show", "scan", "line"];

#[test]
fn help() {
    let folder = Folder::new("help");
    let told = folder.run(&["--help"]).told();
    for arguments in [&["-h"][..], &["help"], &["help", "help"], &["help", "-h"]] {
        assert_eq!(folder.run(arguments).told(), told);
    }
    assert!(told.contains("aes18 encode PLAN -o BITS"), "{told}");
    assert!(told.contains("aes18 decode --line "), "{told}");
    for subcommand in SUBCOMMANDS {
        assert!(told.contains(&format!("\n  aes18 {subcommand} ")), "{told}");
        let own = folder.run(&["help", subcommand]).told();
        assert_eq!(folder.run(&[subcommand, "--help"]).told(), own);
        assert_eq!(folder.run(&[subcommand, "-h"]).told(), own);
        assert!(
            own.contains(&format!("\nUsage: aes18 {subcommand} ")),
            "{own}"
        );
        for option in ["-q, --quiet ", "-h, --help "] {
            assert!(own.contains(&format!("\n  {option}")), "{own}");
        }
    }
    let version = concat!("aes18 ", env!("CARGO_PKG_VERSION"), "\n");
    assert_eq!(folder.run(&["--version"]).told(), version);
}

#[test]
fn every_help_fits() {
    let folder = Folder::new("help-fits");
    for subcommand in [
        &[][..],
        &["encode"],
        &["decode"],
        &["show"],
        &["scan"],
        &["line"],
    ] {
        let told = folder.run(&[&["help"], subcommand].concat()).told();
        for line in told.lines() {
            assert!(line.chars().count() <= 80, "{line}");
            assert_eq!(line, line.trim_end());
        }
    }
}

#[test]
fn what_the_helps_say() {
    let folder = Folder::new("help-words");
    let told = folder.run(&["decode", "--help"]).told();
    assert!(told.contains("4,294,967,295, which stands for that many or more"));
    for (subcommand, rule) in [
        (
            "encode",
            "They rule this block and all later ones until another system packet;",
        ),
        (
            "encode",
            "A packet is still to go until its last copy is placed.",
        ),
        (
            "encode",
            "A message has at most 4,094 bytes, at circuit 0 at most 65,535.",
        ),
        (
            "decode",
            "in its block and all later ones until another system packet,",
        ),
        ("decode", "Only circuit number 0 takes it;"),
        (
            "decode",
            "is number 0 before all others; of several the one with most packets.",
        ),
        (
            "show",
            "is number 0 before all others; of several the one with most packets.",
        ),
    ] {
        let told = folder.run(&[subcommand, "--help"]).told();
        let words: Vec<&str> = told.split_whitespace().collect();
        assert!(words.join(" ").contains(rule), "{told}");
    }
    for subcommand in ["decode", "line"] {
        let told = folder.run(&[subcommand, "--help"]).told();
        assert!(told.contains("  stty -F DEVICE 9600 raw -echo\n"), "{told}");
    }
}

/// Runs each with the message expected. Nothing is written.
fn try_wrong(name: &str, cases: &[(&[&str], &str)]) {
    let folder = Folder::new(name);
    folder.write("there", "circuits 01\n");
    for (arguments, message) in cases {
        let see = match arguments.first() {
            Some(name) if SUBCOMMANDS.contains(name) => format!("aes18 {name}"),
            _ => "aes18".to_string(),
        };
        let message = format!("aes18: {message}\nSee {see} --help.\n");
        folder.run(arguments).failed(2, &message);
    }
    assert_eq!(folder.names(), ["there"]);
}

#[test]
fn no_subcommand() {
    const EXPECTED: &str = "expected encode, decode, show, scan, line or help";
    try_wrong(
        "no-subcommand",
        &[
            (&[], EXPECTED),
            (&["send"], &format!("{EXPECTED}, not 'send'")),
            (&["--json"], &format!("{EXPECTED}, not '--json'")),
            (&["help", "send"], &format!("{EXPECTED}, not 'send'")),
            (
                &["help", "show", "scan"],
                "'scan' is one subcommand too many",
            ),
        ],
    );
}

/// The same mistake, wherever it can be made.
#[test]
fn the_same_words() {
    let file = "expected a file of user bits";
    for subcommand in SUBCOMMANDS {
        let output: &[&str] = match subcommand {
            "encode" | "line" => &["-o", "c"],
            _ => &[],
        };
        let with = |arguments: &[&'static str]| [&[subcommand], arguments, output].concat();
        let missing = match subcommand {
            "encode" => "expected a plan",
            _ => file,
        };
        try_wrong(
            &format!("same-words-{subcommand}"),
            &[
                (&with(&[]), missing),
                (&with(&["a", "b"]), "'b' is one file too many"),
                (&with(&["a", "--frames"]), "no option '--frames'"),
                (&with(&["a", "-x"]), "no option '-x'"),
                (
                    &with(&["a", "--quiet=yes"]),
                    "the option --quiet takes no value",
                ),
            ],
        );
    }
}

#[test]
fn files_to_write() {
    try_wrong(
        "usage-files",
        &[
            (&["encode", "plan"], "expected -o BITS"),
            (
                &["encode", "plan", "-o"],
                "the option -o needs a file of user bits",
            ),
            (
                &["encode", "there", "-o", "./there"],
                "expected another file for BITS than PLAN",
            ),
            (&["line", "bits"], "expected -o LINE"),
            (
                &["line", "bits", "-o"],
                "the option -o needs a file for the line",
            ),
            (
                &["line", "there", "-o", "./there"],
                "expected another file for LINE than BITS",
            ),
            (
                &["show", "there", "--svg", "./there"],
                "expected another file for --svg than BITS",
            ),
            (&["line", "--circuits=01", "a"], "no option '--circuits'"),
            (
                &["decode", "--line", "--circuits=01"],
                "expected a file of a serial line",
            ),
            (
                &["decode", "--line=a", "--circuits=01"],
                "the option --line takes no value",
            ),
        ],
    );
}

#[test]
fn circuits() {
    const CIRCUIT: &str = "--circuits: expected a circuit ADDR or ADDR:EXT, each one or two hex digits, such as 01 or 02:07";
    const STREAM: &str =
        "expected --circuits ADDR[:EXT],..: only a file can be scanned for circuits\n\
        before it is told; the standard input, a pipe or a device is told as it comes";
    let system = "expected an address from 00 to FE, not FF: FF is that of system packets";
    for subcommand in ["decode", "show"] {
        let cases: [(&[&str], &str); 8] = [
            (
                &["a", "--circuits"],
                "the option --circuits needs a list of circuits",
            ),
            (&["--circuits", "", "a"], CIRCUIT),
            (&["--circuits=01,2x", "a"], &format!("{CIRCUIT}, not '2x'")),
            (
                &["--circuits=1,2,3,4,5", "a"],
                "--circuits: expected one to four circuits, not 5",
            ),
            (&["--circuits=01,01", "a"], "--circuits: 01 is listed twice"),
            (&["--circuits=ff", "a"], &format!("--circuits: {system}")),
            (&["-"], STREAM),
            (&["/dev/null"], STREAM),
        ];
        let cases =
            cases.map(|(arguments, message)| ([&[subcommand], arguments].concat(), message));
        let cases: Vec<(&[&str], &str)> = cases
            .iter()
            .map(|(arguments, message)| (arguments.as_slice(), *message))
            .collect();
        try_wrong(&format!("usage-circuits-{subcommand}"), &cases);
    }
    try_wrong(
        "usage-line-circuits",
        &[(&["decode", "--line", "-"], STREAM)],
    );
}

/// No option has two values, whatever its forms and those of its values.
#[test]
fn given_twice() {
    try_wrong(
        "twice",
        &[
            (
                &["decode", "--circuits=01", "--circuits", "02", "a"],
                "--circuits is given twice",
            ),
            (
                &["decode", "--messages=a", "--messages=a", "a"],
                "--messages is given twice",
            ),
            (
                &["encode", "a", "-o", "b", "--output", "b"],
                "--output is given twice",
            ),
            (&["line", "a", "--output=b", "-o"], "-o is given twice"),
            (&["show", "--to=9", "--to=9", "a"], "--to is given twice"),
            (
                &["show", "--color=auto", "--color=never", "a"],
                "--color is given twice",
            ),
            (
                &["scan", "--block=256", "--block=256", "a"],
                "--block is given twice",
            ),
        ],
    );
}

/// Behind `--` there are no options.
#[test]
fn a_file_named_like_an_option() {
    let folder = Folder::new("dashes");
    folder.write("plan", "circuits 01\nblock 256 256 system 15 0\n");
    folder.run(&["encode", "plan", "-o", "bits"]);
    folder.write("--json", folder.read("bits"));
    let told = folder
        .run(&["decode", "--circuits=01", "--", "--json"])
        .told();
    assert!(told.contains("bits read 256;"), "{told}");
}

/// Quiet runs say nothing but errors, and write the same.
#[test]
fn quiet() {
    let folder = Folder::new("quiet");
    folder.write(
        "plan",
        "circuits 01 02\noffer 0 0 0 \"one\"\noffer 1 0 0 @plan\nblock 256 256\n",
    );
    let both = |arguments: &[&str]| {
        let [loud, quiet, short] = [&[][..], &["--quiet"], &["-q"]]
            .map(|option| folder.run(&[arguments, option].concat()));
        assert_eq!((quiet.status, quiet.err.as_str()), (0, ""));
        assert_eq!((short.status, short.err.as_str()), (0, ""));
        assert_eq!((&loud.out, &loud.out), (&quiet.out, &short.out));
        loud.err
    };
    let said = both(&["encode", "plan", "-o", "bits"]);
    assert!(said.contains("\naes18: warning: circuit 1"), "{said}");
    assert!(both(&["line", "bits", "-o", "line"]).starts_with("2 packets, "));
    assert_eq!(both(&["decode", "bits"]), "listening to 01, 02\n");
    assert_eq!(both(&["show", "bits", "--svg=-"]), "listening to 01, 02\n");
    assert_eq!(both(&["scan", "bits"]), "");
    let none = "aes18: none: No such file or directory (os error 2)\n";
    folder.run(&["decode", "-q", "none"]).failed(1, none);
}
