//! The graph of Debian's packages, as `bench/debian-graph` makes it from the machine's package lists, and natural patterns over it.
use crate::cases::Case;
use crate::graphs::Graph;
use std::path::Path;

/// The kinds of relations, by their edge labels.
mod kind {
    pub const DEPENDS: u8 = 1;
    pub const PRE_DEPENDS: u8 = 2;
    pub const RECOMMENDS: u8 = 3;
    pub const SUGGESTS: u8 = 4;
    pub const BREAKS: u8 = 6;
    pub const CONFLICTS: u8 = 7;
    pub const REPLACES: u8 = 8;
    pub const PROVIDES: u8 = 9;
}

pub struct Packages {
    pub graph: Graph,
    /// The lists, with their dates.
    pub dates: String,
    /// The sections in the order of their vertex labels, from 1 on.
    sections: Vec<String>,
}

impl Packages {
    /// Of a folder that `bench/debian-graph` filled; of a small one the first packages alone.
    pub fn read(folder: &Path, small: bool) -> std::io::Result<Packages> {
        let text = |name: &str| std::fs::read_to_string(folder.join(name));
        let graph = Graph::of_file("Debian's packages", &std::fs::read(folder.join("graph.bin"))?);
        let graph = if small { graph.part(6_000) } else { graph };
        let field = |line: &str| line.split('\t').nth(1).unwrap_or_default().to_owned();
        let release = |line: &str| {
            let (list, date) = line.split_once('\t')?;
            let release = list.split("_dists_").nth(1)?.split("_main_").next()?;
            Some(format!("{release} of {date}"))
        };
        let dates = text("lists.txt")?.lines().filter_map(release).collect::<Vec<_>>().join("; ");
        let sections = text("sections.tsv")?.lines().map(field).collect();
        Ok(Packages { graph, dates, sections })
    }

    fn section(&self, name: &str) -> u16 {
        1 + self.sections.iter().position(|section| section == name).expect("a section") as u16
    }

    /// What someone who keeps packages might ask.
    pub fn patterns(&self) -> Vec<Case> {
        use kind::*;
        let all = |kind: u8, pairs: &[(u8, u8)]| pairs.iter().map(|&(a, b)| (a, b, kind)).collect::<Vec<_>>();
        let named = |names: &[&str]| -> Vec<u16> {
            names.iter().map(|name| if name.is_empty() { 0 } else { self.section(name) }).collect()
        };
        vec![
            Case::pattern("depends on what it conflicts with", &[0; 2], vec![(0, 1, DEPENDS), (0, 1, CONFLICTS)], &[]),
            Case::pattern("two that depend on each other", &[0; 2], all(DEPENDS, &[(0, 1), (1, 0)]), &[(0, 1)]),
            Case::pattern("two that suggest each other", &[0; 2], all(SUGGESTS, &[(0, 1), (1, 0)]), &[(0, 1)]),
            Case::pattern("depends on what breaks it", &[0; 2], vec![(0, 1, DEPENDS), (1, 0, BREAKS)], &[]),
            Case::pattern("related in both directions", &[0; 2], all(0, &[(0, 1), (1, 0)]), &[(0, 1)]),
            Case::pattern("a triangle of dependencies", &[0; 3], all(DEPENDS, &[(0, 1), (0, 2), (1, 2)]), &[]),
            Case::pattern("a cycle of three", &[0; 3], all(DEPENDS, &[(0, 1), (1, 2), (2, 0)]), &[(0, 1), (0, 2)]),
            Case::pattern(
                "a cycle of recommendations",
                &[0; 3],
                all(RECOMMENDS, &[(0, 1), (1, 2), (2, 0)]),
                &[(0, 1), (0, 2)],
            ),
            Case::pattern(
                "depends on two that conflict",
                &[0; 3],
                vec![(0, 1, DEPENDS), (0, 2, DEPENDS), (1, 2, CONFLICTS)],
                &[],
            ),
            Case::pattern(
                "two providers that conflict",
                &[0; 3],
                vec![(0, 2, PROVIDES), (1, 2, PROVIDES), (0, 1, CONFLICTS)],
                &[],
            ),
            Case::pattern(
                "replaced, broken, and still depended on",
                &[0; 3],
                vec![(0, 1, REPLACES), (0, 1, BREAKS), (2, 1, DEPENDS)],
                &[],
            ),
            Case::pattern("a chain of pre-dependencies", &[0; 3], all(PRE_DEPENDS, &[(0, 1), (1, 2)]), &[]),
            Case::pattern(
                "a game with a Python module and its manual",
                &named(&["games", "python", "doc"]),
                vec![(0, 1, DEPENDS), (1, 2, SUGGESTS)],
                &[],
            ),
            Case::pattern(
                "a game's libraries that share a library",
                &named(&["games", "libs", "libs", "libs"]),
                all(DEPENDS, &[(0, 1), (0, 2), (1, 3), (2, 3)]),
                &[(1, 2)],
            ),
            Case::pattern(
                "a 4-clique of dependencies",
                &[0; 4],
                all(DEPENDS, &[(0, 1), (0, 2), (0, 3), (1, 2), (1, 3), (2, 3)]),
                &[],
            ),
            Case::pattern(
                "a 4-clique of dependencies in the desktop",
                &named(&["gnome", "", "", "libs"]),
                all(DEPENDS, &[(0, 1), (0, 2), (0, 3), (1, 2), (1, 3), (2, 3)]),
                &[],
            ),
            Case::pattern("a path of dependencies", &[0; 3], all(DEPENDS, &[(0, 1), (1, 2)]), &[]).in_days(false),
        ]
    }
}
