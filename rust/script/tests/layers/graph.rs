//! A graph of modules by name, and a circle in it.

use std::collections::{BTreeMap, BTreeSet};

/// Each module with those that it imports.
pub type Graph = BTreeMap<String, BTreeSet<String>>;

/// The names along a circle, the first again at its end; nothing where the modules are in layers.
pub fn circle(graph: &Graph) -> Option<Vec<String>> {
    let rest = without_layers(graph);
    let mut walk = vec![rest.keys().next()?.clone()];
    loop {
        // What is left has an import that is left, so that the walk goes on until it meets itself.
        let next = rest[&walk[walk.len() - 1]].first()?.clone();
        let met = walk.iter().position(|name| *name == next);
        walk.push(next);
        if let Some(start) = met {
            return Some(walk.split_off(start));
        }
    }
}

/// The modules that are left when those without imports go, layer by layer, and each one's imports
/// among them.
fn without_layers(graph: &Graph) -> Graph {
    let mut rest = graph.clone();
    loop {
        let names: BTreeSet<String> = rest.keys().cloned().collect();
        for imports in rest.values_mut() {
            imports.retain(|name| names.contains(name));
        }
        rest.retain(|_, imports| !imports.is_empty());
        if rest.len() == names.len() {
            return rest;
        }
    }
}

#[cfg(test)]
mod tests {
    use super::*;

    fn graph(edges: &[(&str, &[&str])]) -> Graph {
        let owned = |names: &[&str]| names.iter().map(|name| name.to_string()).collect();
        let modules = edges.iter();
        modules
            .map(|(name, imports)| (name.to_string(), owned(imports)))
            .collect()
    }

    #[test]
    fn layers_have_no_circle() {
        let layers = graph(&[("a", &["b", "c"]), ("b", &["c"]), ("c", &[]), ("d", &[])]);
        assert_eq!(circle(&layers), None);
    }

    #[test]
    fn two_that_import_each_other() {
        let pair = graph(&[("a", &["b"]), ("b", &["a", "c"]), ("c", &[])]);
        assert_eq!(circle(&pair).unwrap(), ["a", "b", "a"]);
    }

    #[test]
    fn a_circle_round_corners_that_another_leads_to() {
        let round = graph(&[
            ("a", &["b"]),
            ("b", &["c", "e"]),
            ("c", &["d"]),
            ("d", &["b"]),
            ("e", &[]),
        ]);
        assert_eq!(circle(&round).unwrap(), ["b", "c", "d", "b"]);
    }
}
