//! Nothing is linked but the program: no start files, and no C library.

fn main() {
    for word in ["-nostdlib", "-nostartfiles", "-static", "-no-pie"] {
        println!("cargo:rustc-link-arg-bins={word}");
    }
}
