//! The library that the crate links: `libptpm.a`, or with the feature `memory` `libptpm_memory.a`. If PTPM_LIB_DIR names a folder, it is
//! the one there, as `make -C hosts install` puts it. Else it is put together from the assembly in `dist/`, or from the C there if
//! the target has no assembly or `PORTABLE=1` asks for it. The C compiler of the target does that: `CC` with the target's name after it
//! (`CC_aarch64_unknown_linux_gnu`), `CC`, or the usual one.
//!
//! These are files of the repository. A crate that is packed or vendored has them in `library/`, where the script `pack` puts them.

use std::env;
use std::path::{Path, PathBuf};
use std::process::Command;

fn main() {
    println!("cargo:rerun-if-env-changed=PTPM_LIB_DIR");
    let folder = match env::var_os("PTPM_LIB_DIR") {
        Some(folder) => named(PathBuf::from(folder)),
        None => assembled(),
    };
    println!("cargo:rustc-link-search=native={}", folder.display());
    println!("cargo:rustc-link-lib=static={}", library());
}

/// The name of the library.
fn library() -> &'static str {
    if env::var_os("CARGO_FEATURE_MEMORY").is_some() {
        "ptpm_memory"
    } else {
        "ptpm"
    }
}

/// The folder of a library that is there. A later one in its place is linked again.
fn named(folder: PathBuf) -> PathBuf {
    let library = folder.join(format!("lib{}.a", library()));
    assert!(library.exists(), "PTPM_LIB_DIR: there is no {}", library.display());
    println!("cargo:rerun-if-changed={}", library.display());
    folder
}

/// Makes the library of the assembly for the target, or of the C. The folder that it is in.
fn assembled() -> PathBuf {
    let own = PathBuf::from(variable("CARGO_MANIFEST_DIR"));
    let is_in_repository = own.join("../../bindings/rust/pack").exists();
    let top = own.join(if is_in_repository { "../.." } else { "library" });
    assert!(
        top.join("hosts/ptpm.h").exists(),
        "{}: the library is not there. Run bindings/rust/pack before the crate is copied",
        own.display()
    );
    let folder = PathBuf::from(variable("OUT_DIR"));
    let compiler = Compiler::of_target();
    let machine = compiler.machine();
    println!("cargo:rerun-if-env-changed=PORTABLE");
    let assembly = format!("dist/{machine}/libptpm.s");
    for file in [&*assembly, "dist/c/heap.c", "dist/portable", "hosts/ptpm.h", "hosts/memory.c", "tools/assemble"] {
        // What is missing counts as changed each time.
        if top.join(file).exists() {
            println!("cargo:rerun-if-changed={}", top.join(file).display());
        }
    }
    let whole = folder.join("whole.o");
    let object = folder.join("ptpm.o");
    let library = folder.join(format!("lib{}.a", library()));
    run(Command::new("sh").arg(top.join("tools/assemble")).arg("libptpm.o").arg(&whole).env("CC", &compiler.words));
    if env::var_os("CARGO_FEATURE_MEMORY").is_some() {
        add_memory(&top, &folder, &compiler);
    }
    let _ = std::fs::remove_file(&library);
    // It shows the names of ptpm.h, and no others.
    run(Command::new(compiler.program("objcopy")).args(["--wildcard", "--keep-global-symbol=ptpm_*"]).arg(&whole).arg(&object));
    run(Command::new(compiler.program("ar")).arg("rcsD").arg(&library).arg(&object));
    folder
}

/// What the library asks of malloc, realloc and free it asks of `memory.c` instead, as in `hosts/Makefile`.
fn add_memory(top: &Path, folder: &Path, compiler: &Compiler) {
    let [whole, memory, renamed] = ["whole.o", "memory.o", "renamed.o"].map(|name| folder.join(name));
    run(compiler.command().args(["-std=gnu11", "-O2", "-fPIC", "-c", "-o"]).arg(&memory).arg(top.join("hosts/memory.c")));
    let names = ["malloc=take_block", "realloc=grow_block", "free=return_block"];
    let redefined = names.iter().flat_map(|name| ["--redefine-sym", name]);
    run(Command::new(compiler.program("objcopy")).args(redefined).arg(&whole).arg(&renamed));
    run(Command::new(compiler.program("ld")).arg("-r").arg("-o").arg(&whole).arg(&renamed).arg(&memory));
}

/// The C compiler of the target: a command with its words.
struct Compiler {
    words: String,
}

impl Compiler {
    fn of_target() -> Self {
        let target = variable("TARGET");
        let own = format!("CC_{}", target.replace('-', "_"));
        for name in [&*own, "CC"] {
            println!("cargo:rerun-if-env-changed={name}");
            if let Ok(words) = env::var(name) {
                return Self { words };
            }
        }
        let machine = variable("CARGO_CFG_TARGET_ARCH");
        let is_here = variable("HOST").split('-').next() == Some(&*machine);
        Self { words: if is_here { "cc".into() } else { format!("{machine}-linux-gnu-gcc") } }
    }

    fn command(&self) -> Command {
        let mut words = self.words.split_whitespace();
        let mut command = Command::new(words.next().unwrap_or("cc"));
        command.args(words);
        command
    }

    fn asked(&self, question: &str) -> String {
        let output = self.command().arg(question).output();
        let output = output.unwrap_or_else(|error| panic!("a C compiler is needed: {}: {error}", self.words));
        String::from_utf8_lossy(&output.stdout).trim().to_owned()
    }

    /// The machine that it is for, which has to be the target's.
    fn machine(&self) -> String {
        let answer = self.asked("-dumpmachine");
        let machine = answer.split('-').next().unwrap_or_default();
        let wanted = variable("CARGO_CFG_TARGET_ARCH");
        assert!(
            machine == wanted,
            "{} is for {machine}, and the target is {wanted}: CC names its C compiler, or PTPM_LIB_DIR the folder of its libptpm.a",
            self.words
        );
        wanted
    }

    /// A program of binutils that belongs to it.
    fn program(&self, name: &str) -> String {
        self.asked(&format!("-print-prog-name={name}"))
    }
}

fn variable(name: &str) -> String {
    env::var(name).unwrap_or_else(|_| panic!("cargo sets {name}"))
}

fn run(command: &mut Command) {
    let status = command.status().unwrap_or_else(|error| panic!("{command:?}: {error}"));
    assert!(status.success(), "{command:?}: {status}");
}
