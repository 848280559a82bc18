//! The boundary is written down three times: by the exports, for Rust and for C. A declaration that differs
//! from its export compiles and links, and its calls then mean nothing; so the texts are compared.

use crate::report::Report;

const RATTLE: [&str; 11] = [
    include_str!("../../crates/meshprobe_c/src/numbers.rt"),
    include_str!("../../crates/meshprobe_c/src/controls.rt"),
    include_str!("../../crates/meshprobe_c/src/vectors.rt"),
    include_str!("../../crates/meshprobe_c/src/arrays.rt"),
    include_str!("../../crates/meshprobe_c/src/coarsening.rt"),
    include_str!("../../crates/meshprobe_c/src/topology.rt"),
    include_str!("../../crates/probe/src/kernels.rt"),
    include_str!("../../crates/probe/src/smoothing.rt"),
    include_str!("../../crates/probe/src/terminals.rt"),
    include_str!("../../crates/probe/src/measures.rt"),
    include_str!("../../crates/probe/src/corrections.rt"),
];
const PROBE: Texts = Texts {
    name: "boundary",
    rattle: &RATTLE,
    rust: &[include_str!("boundary.rs")],
    header: include_str!("../probe.h"),
    calls_from_c: include_str!("../boundary.c"),
};
const LIBRARY: Texts = Texts {
    name: "library",
    rattle: &[
        include_str!("../../crates/multigrid_c/src/calls.rt"),
        include_str!("../../crates/multigrid_c/src/loads.rt"),
        include_str!("../../crates/multigrid_c/src/sizes.rt"),
        include_str!("../../crates/export/src/structs.rt"),
        include_str!("../../crates/charge/src/lib.rt"),
        include_str!("../../crates/solver/src/statistics.rt"),
    ],
    rust: &[
        include_str!("../../rust/src/calls.rs"),
        include_str!("../../rust/src/hierarchy.rs"),
    ],
    header: include_str!("../../include/multigrid.h"),
    calls_from_c: include_str!("../library.c"),
};

/// The exports of a crate with the structs that cross, their declarations, and the program that calls them from C.
struct Texts {
    name: &'static str,
    rattle: &'static [&'static str],
    rust: &'static [&'static str],
    header: &'static str,
    calls_from_c: &'static str,
}

/// A function as the machine sees it, types in Rust's words; or a struct, its fields for the arguments.
#[derive(PartialEq, Debug)]
struct Signature {
    name: String,
    arguments: Vec<String>,
    answer: String,
}

pub fn compare(report: &mut Report) {
    for texts in [PROBE, LIBRARY] {
        let (rattle, rust) = (of_rattle(texts.rattle), of_rust(texts.rust));
        let (name, header) = (texts.name, of_header(texts.header));
        agree(report, &format!("{name}/exports-and-rust"), &rattle, &rust);
        agree(report, &format!("{name}/rust-and-header"), &rust, &header);
        let kind = report.kind(&format!("{name}/called-from-c"));
        let functions = rust
            .iter()
            .filter(|Signature { name, .. }| !name.contains(' '));
        for Signature { name, .. } in functions {
            let called = texts.calls_from_c.contains(&format!("{name}("));
            report.case(kind, called, || format!("{name} is not called from C"));
        }
    }
}

fn agree(report: &mut Report, kind: &str, left: &[Signature], right: &[Signature]) {
    let kind = report.kind(kind);
    for here in left {
        let there = right.iter().find(|there| there.name == here.name);
        report.case(kind, there == Some(here), || {
            format!("{here:?} beside {there:?}")
        });
    }
    for there in right {
        if !left.iter().any(|here| here.name == there.name) {
            report.case(kind, false, || format!("only one side has {there:?}"));
        }
    }
}

fn of_rattle(texts: &[&str]) -> Vec<Signature> {
    let exports = texts
        .iter()
        .flat_map(|text| text.split("pub extern \"C\" fn ").skip(1));
    let exports = exports.map(|text| arrow_signature(text, true));
    exports.chain(structs(texts)).collect()
}

fn of_rust(texts: &[&str]) -> Vec<Signature> {
    let blocks = texts
        .iter()
        .map(|text| between(text, "extern \"C\" {", "\n}"));
    let exports = blocks.flat_map(|block| block.split("fn ").skip(1));
    let exports = exports.map(|text| arrow_signature(text, false));
    exports.chain(structs(texts)).collect()
}

/// What C lays out too: `#[repr(C)]`, and whatever is derived, before `pub struct Name { pub field: type, .. }`.
fn structs<'a>(texts: &'a [&str]) -> impl Iterator<Item = Signature> + 'a {
    let texts = texts
        .iter()
        .flat_map(|text| text.split("#[repr(C)]").skip(1));
    texts.map(|text| {
        let (_, text) = text.split_once("pub struct ").unwrap_or_default();
        let (name, _) = text.split_once(" {").unwrap_or_default();
        let fields = between(text, "{", "\n}").lines().map(str::trim);
        let fields = fields.filter_map(|line| line.strip_prefix("pub ")?.split_once(':'));
        Signature {
            name: format!("struct {}", common(name)),
            arguments: fields
                .map(|(field, kind)| format!("{field} {}", common(kind.trim().trim_matches(','))))
                .collect(),
            answer: String::new(),
        }
    })
}

/// The name of a struct that the three texts call by names of their own.
fn common(name: &str) -> String {
    match name.strip_suffix("ForC").unwrap_or(name) {
        "StoreSizes" => "Charge".to_string(),
        "MultigridLevelStatistics" => "LevelStatistics".to_string(),
        name => name.to_string(),
    }
}

/// `name(argument: type, ..) -> type`, where an exported slice is a pointer and a length.
fn arrow_signature(text: &str, slices: bool) -> Signature {
    let arguments = between(text, "(", ")");
    let types = arguments.split(',').filter_map(|part| part.split_once(':'));
    let after = text
        .split_once(')')
        .map_or("", |(_, after)| after.trim_start());
    let answer = after.strip_prefix("->").unwrap_or("()").trim_start();
    let end = answer.find([';', '{', ' ', '\n']).unwrap_or(answer.len());
    Signature {
        name: name_before_arguments(text),
        arguments: types
            .flat_map(|(_, kind)| expanded(kind.trim(), slices))
            .collect(),
        answer: common(&answer[..end]),
    }
}

fn expanded(kind: &str, slices: bool) -> Vec<String> {
    let (pointer, element) = match (kind.split_once('['), kind.split_once(' ')) {
        (Some(("&", element)), _) if slices => ("*const", element),
        (Some(("&mut ", element)), _) if slices => ("*mut", element),
        (_, Some((pointer, element))) => return vec![format!("{pointer} {}", common(element))],
        _ => return vec![common(kind)],
    };
    let element = common(element.trim_end_matches(']'));
    vec![format!("{pointer} {element}"), "usize".to_string()]
}

/// The functions that the header declares and the structs that it defines; what it defines inline is its own.
fn of_header(text: &str) -> Vec<Signature> {
    let mut text = without_comments(text);
    while let Some(start) = text.find("static inline") {
        let end = text[start..]
            .find("\n}")
            .map_or(text.len(), |end| start + end + 2);
        text.replace_range(start..end, "");
    }
    let kept = |line: &&str| {
        let line = line.trim_start();
        !line.starts_with('#') && !line.starts_with("extern") && line != "}"
    };
    let text: String = text.lines().filter(kept).collect::<Vec<_>>().join(" ");
    let mut found = Vec::new();
    let mut rest = text.trim_start();
    while let Some(end) = rest.find([';', '{']) {
        let declared = &rest[..end];
        if rest[end..].starts_with('{') {
            let (fields, after) = rest[end + 1..].split_once('}').unwrap_or_default();
            let fields = fields
                .split(';')
                .map(str::trim)
                .filter(|field| !field.is_empty());
            found.push(Signature {
                name: format!("struct {}", number_type(declared.trim())),
                arguments: fields
                    .filter_map(|field| field.rsplit_once(' '))
                    .map(|(kind, field)| format!("{field} {}", number_type(kind.trim())))
                    .collect(),
                answer: String::new(),
            });
            rest = after.trim_start_matches([';', ' ']);
        } else {
            found.push(c_signature(declared));
            rest = rest[end + 1..].trim_start();
        }
    }
    found
}

fn without_comments(text: &str) -> String {
    let mut parts = text.split("/*");
    let first = parts.next().unwrap_or_default().to_string();
    parts.fold(first, |kept, part| {
        kept + part.split_once("*/").map_or("", |(_, after)| after)
    })
}

/// `type name(type argument, ..)`
fn c_signature(text: &str) -> Signature {
    let before = text.split('(').next().unwrap_or_default().trim();
    let (answer, name) = before.rsplit_once(' ').unwrap_or(("", before));
    let arguments = between(text, "(", ")").split(',').map(str::trim);
    Signature {
        name: name.to_string(),
        arguments: arguments
            .filter(|&argument| argument != "void")
            .map(c_type)
            .collect(),
        answer: number_type(answer.trim()),
    }
}

fn c_type(argument: &str) -> String {
    if let Some((pointed, _)) = argument.split_once('*') {
        return match pointed.trim().strip_prefix("const ") {
            Some(element) => format!("*const {}", number_type(element)),
            None => format!("*mut {}", number_type(pointed.trim())),
        };
    }
    number_type(argument.rsplit_once(' ').map_or(argument, |(kind, _)| kind))
}

/// A type of C in Rust's words; `struct multigrid_level_statistics` is LevelStatistics.
fn number_type(name: &str) -> String {
    if let Some(name) = name.strip_prefix("struct multigrid_") {
        let words = name
            .split('_')
            .map(|word| word[..1].to_uppercase() + &word[1..]);
        return words.collect();
    }
    let name = match name {
        "void" => "()",
        "double" => "f64",
        "size_t" => "usize",
        "uint64_t" => "u64",
        "uint32_t" => "u32",
        "uint8_t" => "u8",
        other => other,
    };
    name.to_string()
}

fn name_before_arguments(text: &str) -> String {
    text.split('(')
        .next()
        .unwrap_or_default()
        .trim()
        .to_string()
}

fn between<'a>(text: &'a str, open: &str, close: &str) -> &'a str {
    let after = text.split_once(open).map_or("", |(_, after)| after);
    after.split_once(close).map_or("", |(inside, _)| inside)
}
