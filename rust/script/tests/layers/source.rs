//! The modules of a crate, read from its files: their names, and what each imports.

use std::collections::BTreeMap;
use std::fs;
use std::path::Path;

use crate::graph::Graph;

/// The module that is the crate's root.
const ROOT: &str = "crate";

/// Stands for `::` among the tokens, as a single sign that no text here has.
const JOIN: &str = "\u{2237}";

/// The modules of a crate by name, each with its text. Programs in `bin` import the crate as any
/// other does, and no module can import them.
pub fn modules(source: &Path) -> BTreeMap<String, String> {
    let mut modules = BTreeMap::new();
    let mut folders = vec![(source.to_path_buf(), ROOT.to_string())];
    while let Some((folder, parent)) = folders.pop() {
        for entry in fs::read_dir(&folder).expect("a folder of modules") {
            let path = entry.expect("an entry of the folder").path();
            let name = module(&parent, &path);
            if path.is_file() {
                let text = fs::read_to_string(&path).expect("a module");
                modules
                    .entry(name)
                    .or_insert_with(String::new)
                    .push_str(&text);
            } else if name != "crate::bin" {
                folders.push((path, name));
            }
        }
    }
    modules
}

/// The name of the module in a file or folder.
fn module(parent: &str, path: &Path) -> String {
    let stem = path.file_stem().expect("a name").to_string_lossy();
    match (parent, &*stem) {
        (ROOT, "lib" | "main") => ROOT.to_string(),
        _ => format!("{parent}::{stem}"),
    }
}

/// Each module with the modules of the crate that it imports.
pub fn graph(modules: &BTreeMap<String, String>) -> Graph {
    let is_module = |name: &str| modules.contains_key(name);
    let imports = |name: &str, text: &str| {
        let paths = paths(&code(text));
        let imported = paths
            .iter()
            .filter_map(|path| target(name, path, is_module));
        imported.filter(|target| target != name).collect()
    };
    modules
        .iter()
        .map(|(name, text)| (name.clone(), imports(name, text)))
        .collect()
}

/// A module's text without comments and without modules of tests, which end at a brace that is not
/// indented.
fn code(text: &str) -> String {
    let mut code = String::new();
    let mut in_tests = false;
    for line in text.lines() {
        in_tests |= line == "#[cfg(test)]";
        if !in_tests {
            code += line.split("//").next().unwrap_or_default();
            code.push('\n');
        }
        in_tests &= line != "}";
    }
    code
}

/// The paths of a text, in `use` and elsewhere, a group in braces as one path for each of its parts.
fn paths(code: &str) -> Vec<Vec<String>> {
    let mut paths = Vec::new();
    let mut groups: Vec<Vec<String>> = Vec::new();
    let mut path: Vec<String> = Vec::new();
    let mut joined = false;
    for token in tokens(code) {
        match token.as_str() {
            JOIN => joined = true,
            "{" => {
                groups.push(if joined { path.clone() } else { Vec::new() });
                joined = false;
            }
            "}" => {
                paths.push(std::mem::take(&mut path));
                groups.pop();
                joined = false;
            }
            word if joined => {
                path.push(word.to_string());
                joined = false;
            }
            word => {
                paths.push(std::mem::take(&mut path));
                path = groups.last().cloned().unwrap_or_default();
                path.push(word.to_string());
            }
        }
    }
    paths.push(path);
    paths.retain(|path| path.len() > 1);
    paths
}

/// Words, [`JOIN`] and braces; whatever else stands there only parts them.
fn tokens(code: &str) -> Vec<String> {
    let spaced = code
        .replace("::", &format!(" {JOIN} "))
        .replace('{', " { ")
        .replace('}', " } ");
    let is_part =
        |sign: char| sign.is_alphanumeric() || "_{}".contains(sign) || JOIN.contains(sign);
    let parts = spaced.split(|sign| !is_part(sign));
    let tokens = parts.filter(|part| !part.is_empty());
    tokens.map(str::to_string).collect()
}

/// The module of the crate that a path in a module leads to, if it leads to one.
fn target(from: &str, path: &[String], is_module: impl Fn(&str) -> bool) -> Option<String> {
    let below = |module: &str, name: &str| {
        let inner = format!("{module}::{name}");
        is_module(&inner).then_some(inner)
    };
    let (first, rest) = path.split_first()?;
    let mut module = match first.as_str() {
        ROOT => ROOT.to_string(),
        "self" => from.to_string(),
        "super" => parent(from)?,
        name => below(from, name)?,
    };
    for name in rest {
        let next = match name.as_str() {
            "super" => parent(&module),
            name => below(&module, name),
        };
        let Some(next) = next else {
            break; // the name of what the module holds
        };
        module = next;
    }
    Some(module)
}

fn parent(module: &str) -> Option<String> {
    module.rsplit_once("::").map(|(parent, _)| parent.into())
}

#[cfg(test)]
mod tests {
    use super::*;
    use crate::graph::circle;

    fn crate_of(files: &[(&str, &str)]) -> Graph {
        let owned = |(name, text): &(&str, &str)| (name.to_string(), text.to_string());
        graph(&files.iter().map(owned).collect())
    }

    fn imports(graph: &Graph, name: &str) -> Vec<String> {
        graph[name].iter().cloned().collect()
    }

    #[test]
    fn imports_of_every_form() {
        let text = "use crate::b::{self, Thing};\nuse crate::{c::d, e::*};\nuse std::b::f;\n\
                    pub(crate) use inner::Part;\n\nfn f() -> crate::g::Other {\n    h::run()\n}\n";
        let names = [
            "crate",
            "crate::b",
            "crate::c",
            "crate::c::d",
            "crate::e",
            "crate::f",
        ];
        let mut files: Vec<(&str, &str)> = names.iter().map(|name| (*name, "")).collect();
        files.extend([("crate::g", ""), ("crate::h", ""), ("crate::a::inner", "")]);
        files.push(("crate::a", text));
        let wanted = [
            "crate::a::inner",
            "crate::b",
            "crate::c::d",
            "crate::e",
            "crate::g",
        ];
        assert_eq!(imports(&crate_of(&files), "crate::a"), wanted);
    }

    #[test]
    fn what_is_no_import() {
        let text = "//! Like [`b`](crate::b).\n\nfn f() {} // crate::b::g\n\n#[cfg(test)]\n\
                    mod tests {\n    use crate::b::Thing;\n}\n";
        let graph = crate_of(&[("crate", ""), ("crate::a", text), ("crate::b", "")]);
        assert_eq!(graph["crate::a"].len(), 0);
    }

    #[test]
    fn a_part_that_imports_its_whole() {
        let files = [
            ("crate", "pub use a::Thing;"),
            ("crate::a", "mod part;\nuse part::Piece;"),
            ("crate::a::part", "use super::Thing;"),
        ];
        let names = circle(&crate_of(&files)).expect("a circle");
        assert_eq!(names, ["crate::a", "crate::a::part", "crate::a"]);
    }
}
