//! Compiles the header's functions (wrap.c), and a table of every number that the headers define, as the C compiler sees them.

use std::env;
use std::fs;
use std::path::{Path, PathBuf};
use std::process::Command;

fn main() {
    let here = PathBuf::from(env::var_os("CARGO_MANIFEST_DIR").expect("set by cargo"));
    let out = PathBuf::from(env::var_os("OUT_DIR").expect("set by cargo"));
    let include = here.join("../../include");
    let table = out.join("numbers.c");
    println!("cargo:rerun-if-changed={}", include.display());
    fs::write(&table, table_of(&names(&include))).expect("the table can be written");
    for (source, object) in [(here.join("wrap.c"), "wrap.o"), (table, "numbers.o")] {
        println!("cargo:rerun-if-changed={}", source.display());
        let flags = ["-std=c11", "-Wall", "-Wextra", "-Wpedantic", "-Wconversion", "-Werror", "-O1", "-fPIC", "-c", "-o"];
        run(Command::new("gcc").arg("-I").arg(&include).args(flags).arg(out.join(object)).arg(source));
    }
    run(Command::new("ar").arg("crs").arg(out.join("libheaderwrap.a")).arg(out.join("wrap.o")).arg(out.join("numbers.o")));
    println!("cargo:rustc-link-search=native={}", out.display());
    println!("cargo:rustc-link-lib=static=headerwrap");
}

fn run(command: &mut Command) {
    let status = command.status().unwrap_or_else(|error| panic!("{command:?}: {error}"));
    assert!(status.success(), "{command:?} failed");
}

/// The names that the headers give numbers to: `LESUNGKAP_.. =`.
fn names(include: &Path) -> Vec<String> {
    let mut files: Vec<PathBuf> = fs::read_dir(include).expect("a folder").map(|entry| entry.expect("an entry").path()).collect();
    files.sort();
    let mut names = Vec::new();
    for file in files {
        println!("cargo:rerun-if-changed={}", file.display());
        let text = fs::read_to_string(&file).expect("a header");
        let words: Vec<&str> = text.split_whitespace().collect();
        let defined = words.windows(2).filter(|pair| pair[0].starts_with("LESUNGKAP_") && pair[1] == "=");
        names.extend(defined.map(|pair| pair[0].to_string()));
    }
    names
}

fn table_of(names: &[String]) -> String {
    let rows: String = names.iter().map(|name| format!("    {{\"{name}\", (unsigned long long){name}}},\n")).collect();
    format!(
        "#include <lesungkap_tape.h>\n\nstruct number {{ const char *name; unsigned long long value; }};\n\n\
         const struct number wrap_numbers[] = {{\n{rows}}};\n\nconst size_t wrap_number_count = {};\n",
        names.len()
    )
}
