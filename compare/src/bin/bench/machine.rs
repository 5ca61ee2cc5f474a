//! What is said of the machine, the stack and the archive.

use crate::calls::rust_answer;
use compare::stack;
use std::env::consts::ARCH;
use std::process::Command;

/// The processor's name, or on Arm the numbers that stand for it, and its kind.
pub fn processor() -> String {
    let info = std::fs::read_to_string("/proc/cpuinfo").unwrap_or_default();
    let of = |name| field(&info, name);
    match (of("model name"), of("CPU implementer"), of("CPU part")) {
        (Some(name), ..) => format!("{name}, {ARCH}"),
        (None, Some(maker), Some(part)) => format!("implementer {maker}, part {part}, {ARCH}"),
        _ => ARCH.to_string(),
    }
}

/// What stands behind a name, in its first line.
fn field<'a>(info: &'a str, name: &str) -> Option<&'a str> {
    info.lines().find_map(|line| {
        let (key, value) = line.split_once(':')?;
        (key.trim() == name).then_some(value.trim())
    })
}

/// Rust's removal as the header declares one.
extern "C" fn rust_remove(
    block: *const u8,
    n: usize,
    a: usize,
    b: usize,
    out: *mut u8,
    out_n: usize,
) -> u32 {
    // SAFETY: only `deepest_of` calls it, with slices.
    let (block, out) = unsafe {
        (
            std::slice::from_raw_parts(block, n),
            std::slice::from_raw_parts_mut(out, out_n),
        )
    };
    rust_answer(block, [a, b], out)
}

/// The deepest stack of each call.
pub fn print_stack() {
    let rust = stack::deepest_of(rust_remove);
    println!("| Bytes of stack | Kernel | Rust |");
    println!("|----------------|-------:|-----:|");
    for (name, kernel) in stack::deepest() {
        let name = name.to_lowercase();
        let rust = match name.as_str() {
            "remove" => rust.to_string(),
            _ => "-".to_string(),
        };
        println!("| {name:<14} | {kernel:>6} | {rust:>4} |");
    }
}

/// The bytes of the archive, and of the code in it by `size`, where there is such a command.
pub fn print_size() {
    let archive = concat!(
        env!("CARGO_MANIFEST_DIR"),
        "/../target/native/libsumpnewt.a"
    );
    let bytes = std::fs::metadata(archive).map_or(0, |file| file.len());
    println!("archive: {bytes} bytes");
    if let Ok(said) = Command::new("size").arg(archive).output() {
        print!("{}", String::from_utf8_lossy(&said.stdout));
    }
}
