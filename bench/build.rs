//! Links libsepol where it is installed. The proved library is linked by the crate that declares it.

use std::env;
use std::path::{Path, PathBuf};
use std::process::Command;

fn main() {
    println!("cargo:rustc-check-cfg=cfg(sepol)");
    if let Err(reason) = link_sepol() {
        println!("cargo:rustc-env=BENCH_NO_SEPOL={reason}");
    }
    println!(
        "cargo:rustc-env=BENCH_COMPILER={}",
        first_line(Command::new(env::var("RUSTC").unwrap()).arg("--version")).unwrap_or_default()
    );
}

/// Compiles sepol.c and links it with libsepol.a, or says why not.
fn link_sepol() -> Result<(), String> {
    println!("cargo:rerun-if-changed=sepol.c");
    let out = PathBuf::from(env::var_os("OUT_DIR").unwrap());
    let object = out.join("sepol.o");
    let compiled = run(Command::new("cc").args(["-O3", "-Wall", "-Wextra", "-c", "sepol.c", "-o"]).arg(&object));
    compiled.map_err(|_| "libsepol's headers are not installed (Debian: libsepol-dev)".to_string())?;
    run(Command::new("ar").arg("rcs").arg(out.join("libsepolbench.a")).arg(&object))?;
    let library = first_line(Command::new("cc").arg("-print-file-name=libsepol.a"))?;
    let directory = Path::new(&library).parent().filter(|directory| directory.is_absolute());
    let directory = directory.ok_or("libsepol.a is not installed (Debian: libsepol-dev)")?;
    println!("cargo:rustc-link-search=native={}", out.display());
    println!("cargo:rustc-link-lib=static=sepolbench");
    println!("cargo:rustc-link-search=native={}", directory.display());
    println!("cargo:rustc-link-lib=static=sepol");
    println!("cargo:rustc-cfg=sepol");
    Ok(())
}

fn run(command: &mut Command) -> Result<(), String> {
    let status = command.status().map_err(|error| error.to_string())?;
    status.success().then_some(()).ok_or_else(|| format!("{command:?} failed"))
}

fn first_line(command: &mut Command) -> Result<String, String> {
    let output = command.output().map_err(|error| error.to_string())?;
    Ok(String::from_utf8_lossy(&output.stdout).lines().next().unwrap_or_default().to_string())
}
