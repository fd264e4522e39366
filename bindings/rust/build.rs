//! Links the proved archives. Each is looked for where its variable names it, in the repository, and where pkg-config
//! knows it. Both are copied to one place, so that one of the same name in the other's directory cannot be taken
//! instead.
use std::path::{Path, PathBuf};
use std::process::{exit, Command};
use std::{env, fs};

/// An archive: its name for the linker, and the variable that names its file.
struct Archive {
    name: &'static str,
    variable: &'static str,
}

const ARCHIVES: [Archive; 2] = [
    Archive { name: "lagumtay", variable: "LAGUMTAY_ARCHIVE" },
    Archive { name: "lagumtay_queue", variable: "LAGUMTAY_QUEUE_ARCHIVE" },
];

fn main() {
    println!("cargo:rerun-if-changed=build.rs");
    println!("cargo:rerun-if-env-changed=PKG_CONFIG_PATH");
    let of_target = |what| variable(&format!("CARGO_CFG_TARGET_{what}"));
    let [arch, width, os] = ["ARCH", "POINTER_WIDTH", "OS"].map(of_target);
    if (&arch[..], &width[..]) != ("x86_64", "64") || os != "linux" {
        fail(&format!("the archives are for x86-64 only, with Linux, and this target is {arch}, {width} bits, {os}"));
    }
    let out = PathBuf::from(variable("OUT_DIR"));
    println!("cargo:rustc-link-search=native={}", out.display());
    for archive in &ARCHIVES {
        archive.link(&out);
    }
}

impl Archive {
    fn link(&self, out: &Path) {
        println!("cargo:rerun-if-env-changed={}", self.variable);
        let found = self.find();
        println!("cargo:rerun-if-changed={}", found.display());
        if let Err(why) = fs::copy(&found, out.join(self.file())) {
            fail(&format!("{} cannot be copied: {why}", found.display()));
        }
        println!("cargo:rustc-link-lib=static={}", self.name);
    }

    fn file(&self) -> String {
        format!("lib{}.a", self.name)
    }

    /// Where the archive is. A variable that names no file is an error, and nothing else is taken instead.
    fn find(&self) -> PathBuf {
        if let Some(path) = env::var_os(self.variable).map(PathBuf::from) {
            if !path.is_file() {
                fail(&format!("{} names {}, which is no file", self.variable, path.display()));
            }
            return path;
        }
        let built = Path::new(&variable("CARGO_MANIFEST_DIR")).join("../../target/staticlib").join(self.file());
        let places = [Some(built), self.installed()];
        places.into_iter().flatten().find(|path| path.is_file()).unwrap_or_else(|| fail(&self.remedies()))
    }

    /// Where `make install` has put it, if pkg-config knows.
    fn installed(&self) -> Option<PathBuf> {
        let asked = Command::new("pkg-config").args(["--variable=libdir", self.name]).output().ok()?;
        let directory = String::from_utf8(asked.stdout).ok()?;
        let directory = directory.trim_end();
        (asked.status.success() && !directory.is_empty()).then(|| Path::new(directory).join(self.file()))
    }

    fn remedies(&self) -> String {
        let Archive { name, variable } = self;
        let file = self.file();
        format!(
            "{file} is not found. One of these helps:\n  \
             - in the repository: `tools/build {name}` builds it in target/staticlib, where it is found\n  \
             - installed: `make install` in the repository; if its prefix is not a usual one, let PKG_CONFIG_PATH\n    \
             name the directory of {name}.pc\n  \
             - anywhere: let {variable} name the file by its whole path"
        )
    }
}

/// A variable that cargo sets.
fn variable(name: &str) -> String {
    env::var(name).unwrap_or_else(|why| fail(&format!("{name}: {why}")))
}

fn fail(why: &str) -> ! {
    eprintln!("lagumtay: {why}");
    exit(1)
}
