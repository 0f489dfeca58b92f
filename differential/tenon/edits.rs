//! What is changed in the original's files before they are compiled: every edit is in [`EDITS`], with how often its text must be
//! found, so that a file that is not the one this was written for stops the build.

/// One edit. `find` is the text looked for, and it must be found `times` times. Where `until` is given the edit takes in all from
/// `find` up to `until`, or to the end of the file where `until` is empty. What it takes in is replaced by `put`.
pub struct Edit {
    pub file: &'static str,
    pub find: &'static str,
    pub until: Option<&'static str>,
    pub put: &'static str,
    pub times: usize,
}

const fn replace(file: &'static str, find: &'static str, put: &'static str, times: usize) -> Edit {
    Edit { file, find, until: None, put, times }
}

const fn cut(file: &'static str, find: &'static str, until: &'static str) -> Edit {
    Edit { file, find, until: Some(until), put: "", times: 1 }
}

/// Makes what starts with `find` visible from outside: `put` is `find` with `pub`.
const fn public(file: &'static str, find: &'static str, put: &'static str) -> Edit {
    replace(file, find, put, 1)
}

/// The files that are compiled, by their path below crates/fea/src. A file that no edit names is compiled as it stands.
pub const FILES: &[&str] =
    &["faces.rs", "mesh.rs", "problem.rs", "tools.rs", "topo/mod.rs", "topo/filter.rs", "topo/oc.rs", "topo/region.rs"];

/// Files that are compiled once more, and the path of the copy: with the file's edits and then those that name the path.
pub const AGAIN: &[(&str, &str)] = &[("topo/oc.rs", "topo/full.rs")];

pub const EDITS: &[Edit] = &[
    // Modules that are out of scope, or not among the files.
    replace("topo/mod.rs", "pub mod iso;\n", "", 1),
    replace("topo/mod.rs", "pub mod smooth;\npub mod solver;\n", "", 1),
    replace("topo/mod.rs", "pub use iso::{Extracted, Field, Skin};\n", "", 1),
    replace("topo/mod.rs", "pub use solver::Ccx;\n", "", 1),
    // 01: "x³ is (x·x)·x"
    replace("topo/mod.rs", "x.powi(3)", "((x * x) * x)", 1),
    //
    // Of faces.rs only `dist2_to_triangle`: the rest needs the kernel's mesh.
    cut("faces.rs", "use std::collections::BTreeMap;\n", "use tenon_geom::Vec3;\n"),
    cut("faces.rs", "use tenon_kernel::Mesh;\n", "/// The square of the distance from `p` to the triangle"),
    public("faces.rs", "pub(crate) fn dist2_to_triangle(", "pub fn dist2_to_triangle("),
    cut("faces.rs", "/// For each surface of the mesh, the face of the part it lies on", ""),
    //
    // Of problem.rs only what a solver is asked: the rest needs the model's loads and supports.
    cut("problem.rs", "use tenon_model::study::{LoadKind, SupportKind};\n", "use crate::mesh"),
    replace("problem.rs", "use crate::mesh::{Line3, TetMesh};", "use crate::mesh::TetMesh;", 1),
    cut("problem.rs", "/// What a face of the part is, as far as a support needs to know.\n", "/// The part turning: about the axis"),
    cut("problem.rs", "/// A study as it is put to the mesh", "/// What a solver is asked.\n"),
    cut("problem.rs", "/// Adds `d` to a set of directions", ""),
    //
    // The filter's table and its limit in bytes, which the comparison reads.
    public("topo/filter.rs", "    start: Vec<u32>,\n", "    pub start: Vec<u32>,\n"),
    public("topo/filter.rs", "    near: Vec<u32>,\n", "    pub near: Vec<u32>,\n"),
    public("topo/filter.rs", "    coef: Vec<f64>,\n", "    pub coef: Vec<f64>,\n"),
    public("topo/filter.rs", "    fn within(", "    pub fn within("),
    //
    // The tree of the boundary's triangles, which the comparison looks into.
    public("topo/region.rs", "\nstruct Tree {\n    nodes:", "\npub struct Tree {\n    pub nodes:"),
    public("topo/region.rs", "    order: Vec<u32>,\n", "    pub order: Vec<u32>,\n"),
    public("topo/region.rs", "\nstruct Branch {\n    lo: Vec3,\n    hi:", "\npub struct Branch {\n    pub lo: Vec3,\n    pub hi:"),
    public("topo/region.rs", "    first: u32,\n    count:", "    pub first: u32,\n    pub count:"),
    public("topo/region.rs", "    split: Option<(u32, u32)>,", "    pub split: Option<(u32, u32)>,"),
    public("topo/region.rs", "    fn new(tris: &[[Vec3; 3]]) -> Option<Tree>", "    pub fn new(tris: &[[Vec3; 3]]) -> Option<Tree>"),
    //
    // 01: "`sqrt` and `powf(DAMPING)` are IEEE square root", "x² is one product", and tanh is Lambert's continued fraction.
    replace("topo/oc.rs", "(b / lambda).powf(DAMPING)", "(b / lambda).sqrt()", 1),
    replace("topo/oc.rs", "x.powf(PENALTY - 1.0)", "(x * x)", 1),
    replace("topo/oc.rs", "(beta * PROJECT_AT).tanh()", "crate::stand_ins::tanh(beta * PROJECT_AT)", 1),
    replace("topo/oc.rs", "(beta * (1.0 - PROJECT_AT)).tanh()", "crate::stand_ins::tanh(beta * (1.0 - PROJECT_AT))", 1),
    replace("topo/oc.rs", "(beta * (v - PROJECT_AT)).tanh()", "crate::stand_ins::tanh(beta * (v - PROJECT_AT))", 1),
    // 01: "Elapsed and allowed milliseconds are given by the caller": a clock that the comparison sets.
    replace("topo/oc.rs", "use std::time::Instant;", "use crate::stand_ins::Instant;", 1),
    // 01: "reckonings are added here": an update tells how it ended, beside its result.
    replace("topo/oc.rs", "    best\n}\n", "    crate::stand_ins::tell(passes, kept, low, high);\n    best\n}\n", 1),
    // The parts of the loop, which the comparison calls one by one.
    public("topo/oc.rs", "\nfn dot(", "\npub fn dot("),
    public("topo/oc.rs", "\nfn project(", "\npub fn project("),
    public("topo/oc.rs", "\nstruct Seen {\n    density:", "\npub struct Seen {\n    pub density:"),
    public("topo/oc.rs", "    slope: Vec<f64>,\n", "    pub slope: Vec<f64>,\n"),
    public("topo/oc.rs", "\nfn see(", "\npub fn see("),
    public("topo/oc.rs", "\nfn kept(", "\npub fn kept("),
    public("topo/oc.rs", "\nfn volume_slope(", "\npub fn volume_slope("),
    public("topo/oc.rs", "\nfn work_slope(", "\npub fn work_slope("),
    public("topo/oc.rs", "\nfn update(", "\npub fn update("),
    //
    // CR 13: "moves on from each steepness below 16 after exactly 20 rounds, however small the change": the loop once more, without its early move.
    replace("topo/mod.rs", "pub mod oc;\n", "pub mod full;\npub mod oc;\n", 1),
    replace("topo/full.rs", " || change < SETTLED", "", 1),
];

/// The text of `file` after its edits in turn, or what is wrong with it.
pub fn edited(file: &str, mut text: String, edits: &[Edit]) -> Result<String, String> {
    for e in edits.iter().filter(|e| e.file == file) {
        let found = text.matches(e.find).count();
        if found != e.times {
            return Err(format!("{file}: found {found} times, and it must be {}: {:?}", e.times, e.find));
        }
        text = match e.until {
            None => text.replace(e.find, e.put),
            Some(until) => {
                let from = text.find(e.find).unwrap_or(0);
                let rest = &text[from + e.find.len()..];
                let end = if until.is_empty() {
                    Some(rest.len())
                } else if rest.matches(until).count() == 1 {
                    rest.find(until)
                } else {
                    None
                };
                let Some(end) = end else {
                    return Err(format!("{file}: {:?} is not there once after {:?}", until, e.find));
                };
                format!("{}{}{}", &text[..from], e.put, &rest[end..])
            }
        };
    }
    Ok(text)
}
