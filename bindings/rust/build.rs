//! Links the static library: that of the folder which RISTULVA_DIST names by an absolute path, else
//! the one that this package holds for the processor, in `native`.

use std::path::{Path, PathBuf};
use std::{env, fs};

/// A variable that cargo sets for a build script.
fn told(name: &str) -> String {
    env::var(name).unwrap_or_default()
}

/// Where the library lies.
fn dist() -> PathBuf {
    let Some(place) = env::var_os("RISTULVA_DIST") else {
        let native = Path::new(&told("CARGO_MANIFEST_DIR")).join("native");
        return native.join(told("CARGO_CFG_TARGET_ARCH"));
    };
    let place = PathBuf::from(place);
    assert!(
        place.is_absolute(),
        "RISTULVA_DIST has to be an absolute path, and is {}",
        place.display()
    );
    place
}

/// The first two numbers of the version that a header has. While the first is 0, a new second one
/// may change any call, and the third changes none.
fn series(header: &str) -> Option<String> {
    let line = header
        .lines()
        .find_map(|line| line.strip_prefix("#define RISTULVA_VERSION "))?;
    let number: u32 = line.trim_end_matches('u').parse().ok()?;
    Some(format!("{}.{}", number / 1_000_000, number / 1000 % 1000))
}

fn main() {
    let dist = dist();
    let (header, library) = (dist.join("ristulva.h"), dist.join("libristulva.a"));
    println!("cargo:rerun-if-env-changed=RISTULVA_DIST");
    println!("cargo:rerun-if-changed={}", header.display());
    println!("cargo:rerun-if-changed={}", library.display());
    let (system, machine) = (told("CARGO_CFG_TARGET_OS"), told("CARGO_CFG_TARGET_ARCH"));
    assert!(
        system == "linux" && ["x86_64", "aarch64"].contains(&machine.as_str()),
        "the library is for Linux on x86-64 and arm64, and not for {system} on {machine}"
    );
    let (Ok(text), true) = (fs::read_to_string(&header), library.exists()) else {
        panic!(
            "{} has no library: unpack the package whole, or set RISTULVA_DIST to the folder of libristulva.a and ristulva.h",
            dist.display()
        );
    };
    // What src/raw.rs declares is what the headers with these two numbers do.
    let wanted = format!(
        "{}.{}",
        told("CARGO_PKG_VERSION_MAJOR"),
        told("CARGO_PKG_VERSION_MINOR")
    );
    let found = series(&text).unwrap_or_default();
    assert_eq!(found, wanted, "{} has another version", dist.display());
    println!("cargo:rustc-link-search=native={}", dist.display());
    println!("cargo:rustc-link-lib=static=ristulva");
}
