//! Finds the proved archive and has it linked.
use std::env;
use std::fs;
use std::path::{Path, PathBuf};
use std::process::{exit, Command};

/// What to do where there is no archive.
const ADVICE: &str = "set HERRINGNET_ARCHIVE to the archive, or install Herringnet (make install PREFIX=DIR) \
                      and let PKG_CONFIG_PATH have DIR/lib/pkgconfig, or build by the repository's tools/host";

fn main() {
    for name in ["HERRINGNET_ARCHIVE", "PKG_CONFIG", "PKG_CONFIG_PATH"] {
        println!("cargo:rerun-if-env-changed={}", name);
    }
    println!("cargo:rerun-if-changed=build.rs");
    if env::var("CARGO_CFG_TARGET_ARCH").as_deref() != Ok("x86_64") {
        stop("the archive is for x86-64; build with --target x86_64-unknown-linux-gnu, and run under an emulator");
    }
    let archive = archive();
    println!("cargo:rerun-if-changed={}", archive.display());
    // Under a name of its own: a farm may have another archive of the same name, and the linker would take either.
    let folder = PathBuf::from(env::var_os("OUT_DIR").expect("set by cargo"));
    if let Err(error) = fs::copy(&archive, folder.join("libherringnet.a")) {
        stop(&format!("the archive {} cannot be copied: {}", archive.display(), error));
    }
    println!("cargo:rustc-link-search=native={}", folder.display());
    println!("cargo:rustc-link-lib=static=herringnet");
    println!("cargo:rustc-env=HERRINGNET_LINKED={}", archive.display());
    println!("cargo:rustc-env=HERRINGNET_DIGEST={}", digest(&archive));
    println!("cargo:archive={}", archive.display());
}

/// The archive that is asked for; else the one that the repository's own build leaves; else an installed one.
fn archive() -> PathBuf {
    if let Some(path) = env::var_os("HERRINGNET_ARCHIVE") {
        return asked_for(Path::new(&path));
    }
    let package = PathBuf::from(env::var_os("CARGO_MANIFEST_DIR").expect("set by cargo"));
    let own = package.join("../target/staticlib/libscheduler.a");
    if own.is_file() {
        return own;
    }
    match installed() {
        Some(archive) if archive.is_file() => archive,
        Some(archive) => stop(&format!("pkg-config says {}, and there is no such file; {}", archive.display(), ADVICE)),
        None => {
            stop(&format!("there is no archive: neither {} nor one that pkg-config knows; {}", own.display(), ADVICE))
        }
    }
}

/// The file that HERRINGNET_ARCHIVE names. Cargo runs this elsewhere than its caller stands, so a relative path is taken
/// from the folder that the caller's shell gives as PWD.
fn asked_for(path: &Path) -> PathBuf {
    let mut archive = path.to_path_buf();
    if path.is_relative() {
        println!("cargo:rerun-if-env-changed=PWD");
        match env::var_os("PWD") {
            Some(stand) => archive = Path::new(&stand).join(path),
            None => stop("HERRINGNET_ARCHIVE is relative, and PWD does not say to what: give it in full"),
        }
    }
    match archive.is_file() {
        true => archive,
        false => stop(&format!(
            "HERRINGNET_ARCHIVE is {}, and there is no file {}; {}",
            path.display(),
            archive.display(),
            ADVICE
        )),
    }
}

/// The archive of an installed copy, if pkg-config knows one.
fn installed() -> Option<PathBuf> {
    let program = env::var_os("PKG_CONFIG").unwrap_or_else(|| "pkg-config".into());
    let said = Command::new(program).args(["--variable=archive", "herringnet"]).output().ok()?;
    let path = String::from_utf8(said.stdout).ok()?;
    Some(path.trim()).filter(|path| said.status.success() && !path.is_empty()).map(PathBuf::from)
}

/// The archive's SHA-256 in hex, as everybody's sha256sum gives it.
fn digest(archive: &Path) -> String {
    let said = Command::new("sha256sum").arg("--").arg(archive).output();
    let digest = said.ok().and_then(|said| String::from_utf8(said.stdout).ok());
    let digest =
        digest.and_then(|line| line.split_whitespace().next().map(|word| word.trim_start_matches('\\').to_string()));
    match digest.filter(|digest| digest.len() == 64) {
        Some(digest) => digest,
        None => stop("sha256sum does not give the archive's digest"),
    }
}

fn stop(why: &str) -> ! {
    eprintln!("herringnet: {}", why);
    exit(1)
}
