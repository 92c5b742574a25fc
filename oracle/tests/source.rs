//! What is left of the source is a part of it: line by line, body by body.
//!
//! SOURCE_DIR names the folder of the source, the one that has
//! `crates/wirescript-sim` in it. Without it the two tests that read the source
//! say that they did not compare, and pass.

use std::collections::BTreeSet;
use std::io::Write;
use std::path::{Path, PathBuf};

/// Our file, the source's file, and the bodies kept from it.
const KEPT: [(&str, &str, &[&str]); 6] = [
    (
        "machine.rs",
        "machine.rs",
        &[
            "tick",
            "stats",
            "step",
            "late_pass",
            "finish_chain",
            "pass",
            "activate",
            "push_late",
            "push_pending",
            "run_unit",
            "deliver_world_events",
            "run_chain",
            "fire_chain",
            "push_calls",
            "push_calls_in_plane",
            "frame_of",
            "lose",
            "publish_writes",
            "settle",
            "is_watched",
            "buffer_exec_mode",
            "mark_readers",
            "invalidate",
            "set_out",
            "set_out_named",
            "read_input",
            "read_named",
            "read_output",
            "refresh",
            "recompute",
            "compute",
            "target",
            "record_write",
            "exec_gate",
            "countdown",
            "advance_timers",
            "detect",
            "buffer_input",
            "advance_buffers",
            "advance_clocks",
            "deliver_events",
            "error",
            "value_output",
            "tick_down",
            "due",
            "set_in_kind",
        ],
    ),
    (
        "machine/callable.rs",
        "machine/callable.rs",
        &["callables", "callable", "begin_invocation", "run_body", "run_loop"],
    ),
    (
        "graph.rs",
        "graph.rs",
        &["is_pure", "input", "output", "field", "field_str", "field_f64", "field_i64", "field_bool", "gate"],
    ),
    ("value.rs", "value.rs", &["eq", "truthy", "as_int", "as_float", "kind"]),
    ("world.rs", "world.rs", &["events"]),
    ("mod.rs", "lib.rs", &["dt_at"]),
];

/// Lines that stand in for a line that cannot stand once others are cut off:
/// body, our line, the source's line.
const STAND_INS: [(&str, &str, &str); 10] = [
    ("step", "Ok(())", "self.record_displays()"),
    ("exec_gate", "_ => return Err(self.error(g, \"not an exec gate\")),", "_ => return self.world_gate(g),"),
    (
        "callables",
        "if !matches!(shell.op, Op::Loop(_)) {",
        "if !matches!(shell.op, Op::FunctionDefinition | Op::Loop(_)) {",
    ),
    ("is_pure", "Self::Select", "| Self::Select"),
    ("field_str", "_ => None,", "v => match WireValue::try_from(v).ok()? {"),
    ("field_f64", "_ => None,", "v => Value::from_wire(&WireValue::try_from(v).ok()?)?.as_float(),"),
    ("field_i64", "_ => None,", "v => Value::from_wire(&WireValue::try_from(v).ok()?)?.as_int(),"),
    ("field_bool", "_ => None,", "v => Value::from_wire(&WireValue::try_from(v).ok()?).map(|v| v.truthy()),"),
    ("truthy", "Self::Ref(_) => true,", "Self::Ref(_) | Self::Brick(_) | Self::Handle(_) => true,"),
    ("truthy", "v => semantics::truthy(v),", "v => semantics::truthy(v.to_semantic().as_ref()),"),
];

/// What the other added lines do: record, test a limit of document 01, say that
/// no way leads there, or look without a trace.
const RECORDS: [&str; 4] = ["self.tally.", "self.begin(", "self.within_limits()", "self.look_on()"];

const MARK: &str = "// oracle:";

#[test]
fn the_bodies_kept_are_those_named() {
    for (ours, _, names) in KEPT {
        let found: BTreeSet<String> = bodies(&our_file(ours)).into_iter().map(|b| b.name).collect();
        let named: BTreeSet<String> = names.iter().map(|n| n.to_string()).collect();
        assert_eq!(found, named, "{ours}");
    }
}

#[test]
fn every_added_line_records_tests_looks_or_is_listed() {
    let mut stand_ins = 0;
    for (ours, _, _) in KEPT {
        for body in bodies(&our_file(ours)) {
            for line in body.lines.iter().filter(|l| l.contains(MARK)) {
                let code = line.split(MARK).next().unwrap().trim();
                let listed = STAND_INS.iter().any(|(b, l, _)| *b == body.name && *l == code);
                let records = RECORDS.iter().any(|r| code.contains(r));
                assert!(listed != records, "{ours} {}: {line}", body.name);
                stand_ins += usize::from(listed);
            }
        }
    }
    assert_eq!(stand_ins, STAND_INS.len());
}

#[test]
fn what_is_left_is_a_part_of_the_source() {
    let Some(dir) = source_dir() else { return not_run("the bodies") };
    let mut cut = String::new();
    for (ours, theirs, names) in KEPT {
        let (ours, theirs) = (our_file(ours), file(&dir.join(theirs)));
        let (ours, theirs) = (bodies(&ours), bodies(&theirs));
        for name in names {
            let (ours, theirs) = (only(&ours, name), only(&theirs, name));
            let gone = gone(ours, theirs).unwrap_or_else(|line| panic!("{name}: not in the source: {line}"));
            for (_, _, line) in STAND_INS.iter().filter(|(body, _, _)| body == name) {
                assert!(gone.contains(line), "{name}: not among the lines cut off: {line}");
            }
            if !gone.is_empty() {
                cut += &format!("{name}\n    {}\n", gone.join("\n    "));
            }
        }
    }
    let target = Path::new(env!("CARGO_TARGET_TMPDIR"));
    std::fs::write(target.join("cut.txt"), &cut).unwrap();
    let listed = std::fs::read_to_string(crate_dir().join("tests/cut.txt")).unwrap_or_default();
    assert!(cut == listed, "the lines cut off are not those of tests/cut.txt");
}

/// Types, constants and comments too: each file, without its own head and its
/// marked lines, is a part of the source's file.
#[test]
fn what_stands_between_the_bodies_is_a_part_of_the_source() {
    let Some(dir) = source_dir() else { return not_run("what stands between them") };
    for (ours, theirs, _) in KEPT {
        let theirs = file(&dir.join(theirs));
        let mut left = theirs.lines().map(str::trim);
        for line in our_file(ours).lines().map(str::trim).filter(|l| !is_head(l) && !l.contains(MARK)) {
            assert!(left.any(|l| l == line), "{ours}: not in the source in this place: {line}");
        }
    }
}

/// What a file's own head holds: its imports, modules, attributes and lines
/// about itself.
fn is_head(line: &str) -> bool {
    let heads = ["use ", "mod ", "pub mod ", "#![", "//!"];
    line.is_empty() || heads.iter().any(|h| line.starts_with(h))
}

/// A function from its first line to its closing brace, lines trimmed.
struct Body {
    name: String,
    lines: Vec<String>,
}

fn bodies(text: &str) -> Vec<Body> {
    let lines: Vec<&str> = text.lines().collect();
    let mut bodies = Vec::new();
    for (at, line) in lines.iter().enumerate() {
        let Some(name) = function_name(line) else { continue };
        if line.trim_end().ends_with(';') {
            continue;
        }
        let indent = line.len() - line.trim_start().len();
        let close = format!("{}}}", " ".repeat(indent));
        let length = lines[at..].iter().position(|l| *l == close).expect("a closing brace") + 1;
        let lines = lines[at..at + length].iter().map(|l| l.trim().to_string()).collect();
        bodies.push(Body { name, lines });
    }
    bodies
}

fn function_name(line: &str) -> Option<String> {
    let line = line.trim_start();
    let rest = ["fn ", "pub fn ", "pub(crate) fn ", "pub(super) fn "].iter().find_map(|p| line.strip_prefix(p))?;
    rest.split(['(', '<']).next().map(str::to_string)
}

/// The one body of this name. `Machine`'s own and a trait's may share one;
/// then the first is meant.
fn only<'a>(bodies: &'a [Body], name: &str) -> &'a Body {
    bodies.iter().find(|b| b.name == name).unwrap_or_else(|| panic!("no body {name}"))
}

/// The source's lines that are not ours, or a line of ours that is not the
/// source's in its place.
fn gone<'a>(ours: &Body, theirs: &'a Body) -> Result<Vec<&'a str>, String> {
    let mut left = theirs.lines.iter().filter(|l| !l.is_empty());
    let mut gone = Vec::new();
    for line in ours.lines.iter().filter(|l| !l.is_empty() && !l.contains(MARK)) {
        loop {
            match left.next() {
                None => return Err(line.clone()),
                Some(l) if l == line => break,
                Some(l) => gone.push(l.as_str()),
            }
        }
    }
    gone.extend(left.map(String::as_str));
    Ok(gone)
}

fn crate_dir() -> PathBuf {
    PathBuf::from(env!("CARGO_MANIFEST_DIR"))
}

fn our_file(name: &str) -> String {
    file(&crate_dir().join("src/source").join(name))
}

fn file(path: &Path) -> String {
    std::fs::read_to_string(path).unwrap_or_else(|e| panic!("{}: {e}", path.display()))
}

/// The folder of the source's files, if SOURCE_DIR is given.
fn source_dir() -> Option<PathBuf> {
    let root = std::env::var_os("SOURCE_DIR")?;
    Some(Path::new(&root).join("crates/wirescript-sim/src"))
}

/// Says so on standard error itself, which the tests' runner does not hold back.
fn not_run(what: &str) {
    let line = format!("not compared with the source, since SOURCE_DIR is not given: {what}\n");
    std::io::stderr().write_all(line.as_bytes()).unwrap();
}
