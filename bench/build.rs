//! Compiles the parts in C by gcc at -O2, and tells the program by which compilers it was made.

use std::path::PathBuf;
use std::process::{exit, Command};
use std::{env, io};

/// The last one keeps jumps off the borders of 32 bytes, where some processors are slow with them: else the place that a loop gets in the program decides its
/// speed.
const FLAGS: [&str; 6] = [
    "-std=c99",
    "-O2",
    "-Wall",
    "-Wextra",
    "-Werror",
    "-Wa,-mbranches-within-32B-boundaries",
];

fn main() {
    let out = PathBuf::from(env::var_os("OUT_DIR").expect("cargo sets OUT_DIR"));
    let mut archive = Command::new("ar");
    archive.arg("crs").arg(out.join("libbench.a"));
    for part in ["plain", "fast", "stack"] {
        let object = out.join(part).with_extension("o");
        let source = format!("{part}.c");
        let mut compile = Command::new("gcc");
        compile.args(FLAGS).args(["-c", &source, "-o"]).arg(&object);
        run(&mut compile);
        archive.arg(object);
        println!("cargo:rerun-if-changed={source}");
    }
    run(&mut archive);
    println!("cargo:rerun-if-changed=bench.h");
    println!("cargo:rustc-link-search=native={}", out.display());
    println!("cargo:rustc-link-lib=static=bench");
    let rustc = env::var("RUSTC").expect("cargo sets RUSTC");
    println!("cargo:rustc-env=BENCH_FLAGS={}", FLAGS.join(" "));
    println!("cargo:rustc-env=BENCH_GCC={}", version("gcc"));
    println!("cargo:rustc-env=BENCH_RUSTC={}", version(&rustc));
}

/// The first line that a compiler says of itself.
fn version(compiler: &str) -> String {
    let said = run(Command::new(compiler).arg("--version"));
    said.lines().next().unwrap_or(compiler).to_string()
}

/// Runs a command that must succeed, and answers what it writes.
fn run(command: &mut Command) -> String {
    let name = command.get_program().to_string_lossy().into_owned();
    match command.output() {
        Ok(done) if done.status.success() => String::from_utf8_lossy(&done.stdout).into_owned(),
        Ok(done) => fail(&format!(
            "the command '{name}' ended with {}\n{}",
            done.status,
            String::from_utf8_lossy(&done.stderr)
        )),
        Err(error) if error.kind() == io::ErrorKind::NotFound => {
            fail(&format!("the command '{name}' is not on the PATH"))
        }
        Err(error) => fail(&format!("the command '{name}' cannot be run: {error}")),
    }
}

/// Ends the build with a message.
fn fail(message: &str) -> ! {
    eprintln!("bench: {message}");
    exit(1)
}
