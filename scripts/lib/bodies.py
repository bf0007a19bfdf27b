"""Bodies that no clause speaks of, which trials plant in a copy of the crates, and the lines that they replace."""

PASSES = "crates/qh_run/src/passes.rt"
RUN = "crates/qh_run/src/run.rt"
ROOT = "crates/qh_run/src/root.rt"

# Each body gives the right hull, by workers that do not run at once, are too few, give up too soon, or whose list is not used: its name, its
# file, and texts of the right body with their replacements.
WORKERS = [
    ("workers-in-turn", PASSES, [
        ("use std::thread::{Threads, join};\n",
         "use std::thread::Threads;\n\n"
         "fn in_turn<A, B, F: FnOnce() -> A, G: FnOnce() -> B>(one: F, two: G) -> (A, B) {\n    (one(), two())\n}\n"),
        ("join(\n        rt,\n", "in_turn(\n"),
    ]),
    ("two-passes-whatever-the-number", ROOT, [("workers.min(set.cut.blocks())", "workers.min(2)")]),
    ("hulls-on-the-caller-alone", ROOT, [
        ("match reduced(rt, alloc, set, passes, gate) {", "match reduced(rt, alloc, set, passes.min(0), gate) {"),
    ]),
    ("ignores-the-roots-list", RUN, [
        ("Some(part) => Ok(gate.finish(alloc, pts, &part)?),", "Some(_) => Ok(gate.finish(alloc, pts, ids)?),"),
    ]),
    ("starts-no-worker", PASSES, [("run_pass(alloc, board, pass, gate)", "board.leave(pass)")]),
    ("gives-up-at-a-join", "crates/qh_run/src/blocks.rt", [
        ("        let both = union(alloc, &even.ids, &odd.ids)?;\n",
         "        let both = union(alloc, &even.ids, &odd.ids)?;\n"
         "        if !both.is_empty() {\n            return Err(GivesUp);\n        }\n"),
    ]),
    ("tells-the-block-for-the-pass", "crates/qh_run/src/worker.rt", [("gate.claimed(pass, block)", "gate.claimed(block, pass)")]),
]  # fmt: skip

# A body that tests each triple of the ids against all ids, and takes the hull only then.
ALL_TRIPLES = ("filters-all-triples", "crates/qh_block/src/hulls.rt", [
    ("    match rank(set.pts, set.ids) {\n",
     "    if supporting_triples(set) == 1 {\n        return Err(Memory);\n    }\n    match rank(set.pts, set.ids) {\n"),
    ("use std::alloc::Global;\n", """use std::alloc::Global;

/// The number of triples of ids that have no id above their plane.
fn supporting_triples(set: IdSet) -> usize {
    let at = |id: &Id| set.pts[id.index()];
    let mut count = 0;
    for i in set.ids {
        for j in set.ids {
            for k in set.ids {
                let (a, b, c) = (at(i), at(j), at(k));
                if !qh_pred::in_line(a, b, c) && set.ids.iter().all(|l| qh_pred::vol(a, b, c, at(l)) <= 0) {
                    count += 1;
                }
            }
        }
    }
    count
}
"""),
])  # fmt: skip

# The line that hulls all ids where the tree has no root, and its replacement.
WITHOUT_ROOT = ("without-root", RUN, [("None => Ok(gate.finish(alloc, pts, ids)?),", "None => Err(RunError::Memory),")])

# The crate whose tests call `answer`, and a body of it that is always out of memory.
ROWS = "crates/qh_tests_serve"
ALWAYS_MEMORY = [
    ("answer", "crates/qh_serve/src/answers.rt", [("""{
    let points = points_in(rt, alloc, input, settings)?;
    let text = text_of(rt, alloc, &points, settings, gate)?;
    Ok(text.joined(alloc)?)
}
""", "{\n    Err(Fault::from(Memory))\n}\n")]),
    # The longest input. The planted body does not look at it, so a short one serves as well.
    ("a short input", f"{ROWS}/src/tests/serve/limits.rt", [
        ("const TOO_MANY: usize = 268435457;", "const TOO_MANY: usize = 1000;"),
    ]),
    # Of the calls that a gate watches, `answer` alone is looked at.
    ("answer alone", f"{ROWS}/src/tests/workers/gated.rt", [
        ("pub(super) const WATCHED: [Watched; 3] = [Watched::RunHull, Watched::Answer, Watched::Serve];",
         "pub(super) const WATCHED: [Watched; 1] = [Watched::Answer];"),
    ]),
]  # fmt: skip

# Comparisons of what `answer` gave with what it should give, and their replacements, which require a difference. A name before a dot is one
# that the tests give to an outcome of `answer`.
TURNED = [
    (r"assert_eq!(\(rt; answered\.told\(\), want)", r"assert_ne!\1"),
    (r"assert!\(rt; ((?:outcome|whole)\.output\.starts_with\()", r"assert!(rt; !\1"),
    (r"assert_eq!(\(rt; (?:count|joins), )", r"assert_ne!\1"),
    (r"assert!\(rt; (joins >= 100)", r"assert!(rt; !(\1)"),
    (r"assert!\(rt; (gate\.came_in_time\(\))", r"assert!(rt; !\1"),
    (r"assert!\(rt; (gate\.was_told_right\(\))", r"assert!(rt; !\1"),
    (r"assert_eq!(\(rt; outcome\.told\(\), \(OCTAHEDRON_OFF)", r"assert_ne!\1"),
    (r"assert!\(rt; (text\.is_ok_and\()", r"assert!(rt; !\1"),
    (r"if !(answers\()", r"if \1"),
    (r"\.status != 0", ".status == 0"),
]
