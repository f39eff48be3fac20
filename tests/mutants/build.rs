//! Writes for each edit of edits.txt and of lines/ the edited file of the reference, and copies of the files that use it, as modules m0, m1,
//! .. of this crate. All else is the reference's own.

use std::collections::BTreeMap;
use std::env;
use std::fs;
use std::path::Path;

/// The files of the reference that an edit may change, each with the calls that it makes public.
const FILES: [(&str, &[&str]); 11] = [
    ("accept", &[]),
    ("answer", &[]),
    ("card", &[]),
    ("control", &["control"]),
    ("layout", &[]),
    ("pages", &["register_pages"]),
    ("query", &[]),
    ("queues", &["reset", "post_receive", "flush", "poll"]),
    ("record", &[]),
    ("send", &["post_send"]),
    ("turns", &["enqueue", "turn"]),
];

type Sources = BTreeMap<&'static str, String>;

struct Edit<'a> {
    name: &'a str,
    file: &'a str,
    /// The lines of docs/TRACE.md that it breaks.
    breaks: &'a str,
    old: String,
    new: String,
}

fn main() {
    println!("cargo:rerun-if-changed=edits.txt");
    println!("cargo:rerun-if-changed=lines");
    println!("cargo:rerun-if-changed=../reference/src");
    let out = env::var("OUT_DIR").expect("set by cargo");
    let mut lists = vec![(None, fs::read_to_string("edits.txt").expect("the list of edits"))];
    lists.extend(FILES.iter().filter_map(|(name, _)| Some((Some(*name), fs::read_to_string(format!("lines/{name}.txt")).ok()?))));
    let files = fs::read_dir("lines").expect("a folder of lists").count();
    assert_eq!(files + 1, lists.len(), "a file of lines/ has the name of no file of the reference");
    let edits = lists.iter().flat_map(|(file, text)| text.split("\n# ").skip(1).map(move |block| parse(block, *file)));
    let source = |name: &str| fs::read_to_string(format!("../reference/src/{name}.rs")).expect("the reference's source");
    let sources: Sources = FILES.iter().map(|(name, _)| (*name, source(name))).collect();
    let mut modules = String::new();
    let mut list = String::new();
    for (n, edit) in edits.enumerate() {
        write_copy(&Path::new(&out).join(format!("m{n}")), n, &edit, &sources);
        modules += &format!(
            "#[path = \"{out}/m{n}/mod.rs\"]\nmod m{n};\nstruct Mutant{n};\ncard_of!(Mutant{n}, {:?}, m{n});\n",
            edit.name
        );
        list += &format!("(&Mutant{n}, {:?}), ", edit.breaks);
    }
    modules += &format!(
        "/// Each wrong card, with the lines of the trace that it breaks.\npub const ALL: &[(&dyn Card, &str)] = &[{list}];\n"
    );
    fs::write(Path::new(&out).join("all.rs"), modules).expect("OUT_DIR can be written");
}

/// A name, the file unless it is given, "for: " and lines of the trace, lines from "- " on that are replaced, and lines from "+ " on that
/// replace them.
fn parse<'a>(block: &'a str, file: Option<&'a str>) -> Edit<'a> {
    let mut lines = block.lines();
    let name = lines.next().expect("a name");
    let file = file.or_else(|| lines.next()?.strip_suffix(".rs")).expect("a file");
    let marked = |mark: &str| lines.clone().filter_map(|line| line.strip_prefix(mark)).collect::<Vec<_>>().join("\n");
    let breaks = lines.clone().find_map(|line| line.strip_prefix("for: ")).unwrap_or_default();
    Edit { name, file, breaks, old: marked("- "), new: marked("+ ") }
}

fn write_copy(folder: &Path, n: usize, edit: &Edit, sources: &Sources) {
    fs::create_dir_all(folder).expect("OUT_DIR can be written");
    let mut edited = sources.clone();
    let text = edited.get_mut(edit.file).unwrap_or_else(|| panic!("no file {}.rs", edit.file));
    assert_eq!(text.matches(&edit.old).count(), 1, "{}.rs must have the text of '{}' once", edit.file, edit.name);
    *text = text.replace(&edit.old, &edit.new);
    let copied = users(edit.file, sources);
    let mut root = String::from("#![allow(dead_code, unused, clippy::all)]\npub use reference::*;\n");
    for (name, calls) in FILES.iter().filter(|(name, _)| copied.contains(name)) {
        fs::write(folder.join(format!("{name}.rs")), with_paths(&edited[name], n, &copied)).expect("OUT_DIR can be written");
        root += &format!("pub mod {name};\n");
        for call in *calls {
            root += &format!("pub use self::{name}::{call};\n");
        }
    }
    fs::write(folder.join("mod.rs"), root).expect("OUT_DIR can be written");
}

/// The file and all that use it, by whatever way.
fn users(file: &str, sources: &Sources) -> Vec<&'static str> {
    let mut found: Vec<&str> = sources.keys().copied().filter(|name| *name == file).collect();
    loop {
        let uses = |text: &str| found.iter().any(|name| text.contains(&format!("crate::{name}")));
        let more: Vec<&str> =
            sources.iter().filter(|(name, text)| !found.contains(name) && uses(text)).map(|(name, _)| *name).collect();
        if more.is_empty() {
            return found;
        }
        found.extend(more);
    }
}

/// Leads each path of the reference to its copy, or to the reference itself.
fn with_paths(text: &str, n: usize, copied: &[&str]) -> String {
    let mut parts = text.split("crate::");
    let mut changed = parts.next().unwrap_or_default().to_string();
    for part in parts {
        let name: String = part.chars().take_while(|c| c.is_alphanumeric() || *c == '_').collect();
        changed += &if copied.contains(&&*name) { format!("crate::m{n}::") } else { "reference::".into() };
        changed += part;
    }
    changed
}
