//! Random lines. The same seed gives the same lines.

use std::collections::HashSet;

/// How many lines a call gets at least.
const LEAST: usize = 22;

/// A family of calls: its heading, and on each kind of value its calls, each with the kind of its arguments.
type Family = (&'static str, &'static [(&'static str, &'static str)]);

const FAMILIES: &[Family] = &[
    ("Tests", &[
        ("both", "has_left: | has_left_and: test | has_left_or: test | has_right: | has_right_and: test | has_right_or: test | is_both: \
            | is_both_and: test of two | is_both_or: test test"),
        ("both either", "is_left: | is_left_and: test | is_left_or: test | is_right: | is_right_and: test | is_right_or: test"),
    ]),
    ("References", &[
        ("both either", "as_ref: | as_mut: f f | left_mut: left | right_mut: right | as_deref: | as_deref_mut: f f | clone: | cloned: \
            | cloned_mut: | copied: | copied_mut:"),
        ("either", "from_ref: | from_mut: f f"),
    ]),
    ("Unwraps", &[
        ("both", "expect_both: | unwrap_both: | expect_only_left: | unwrap_only_left: | expect_only_right: | unwrap_only_right:"),
        ("both either", "expect_left: | unwrap_left: | expect_right: | unwrap_right:"),
        ("with left", "unwrap_left_unchecked:"),
        ("with right", "unwrap_right_unchecked:"),
        ("with both", "unwrap_both_unchecked:"),
        ("only left", "unwrap_only_left_unchecked:"),
        ("only right", "unwrap_only_right_unchecked:"),
        ("either left", "unwrap_left_unchecked:"),
        ("either right", "unwrap_right_unchecked:"),
    ]),
    ("Getters", &[
        ("both", "both: | both_and: other | both_and_then: place | only_left: | only_right: | unzip: | left_and_then: place \
            | right_and_then: place"),
        ("either", "left_and_then: side | right_and_then: side"),
        ("both either", "left: | left_and: other | right: | right_and: other"),
    ]),
    ("Changes of form", &[
        ("both either", "flip: | bimap: f f | map_left: f | map_left_or: left f | map_left_or_default: f | map_left_or_else: left f \
            | map_right: f | map_right_or: right f | map_right_or_default: f | map_right_or_else: right f | reduce_left: f \
            | reduce_right: f | ok: | ok_or: left | ok_or_else: left | or: left right | or_default: | or_else: left right \
            | into_left: f | into_right: f"),
        ("both", "reduce_map_left: f f | reduce_map_right: f f"),
        ("numbers number", "map: f"),
        ("numbers", "reduce: of two"),
        ("number", "reduce: | reduce_map: f"),
        ("either", "bireduce: f f | inject_left: left | inject_right: right"),
    ]),
    ("Inspection and application", &[
        ("both either", "biinspect: f f | inspect_left: f | inspect_right: f | biapply: f f | biapply_with: f f | apply_left: f \
            | apply_right: f"),
        ("numbers number", "inspect: f | apply: f"),
    ]),
    ("In place", &[
        ("both", "insert_left: left | left_or_insert: left | left_or_insert_default: | left_or_insert_with: left | insert_right: right \
            | right_or_insert: right | right_or_insert_default: | right_or_insert_with: right | replace_any: left right"),
        ("both either", "replace_left: left | replace_right: right"),
    ]),
    ("Transpositions", &[
        ("pairs", "transpose: | transpose_left: of two | transpose_right: of two"),
        ("options", "transpose:"),
        ("results", "transpose: | transpose_err: of two | transpose_ok: of two"),
        ("either of pairs", "transpose: | transpose_left: | transpose_right:"),
        ("either of options", "transpose:"),
        ("either of results", "transpose: | transpose_err: | transpose_ok:"),
    ]),
    ("Conversions", &[
        ("tuple", "into:"),
        ("tuple without left", "into:"),
        ("tuple without right", "into:"),
        ("two options", "try_into: | question: | message:"),
        ("result", "into:"),
        ("either", "into: | question:"),
    ]),
    ("Order and hashes", &[("small", "cmp: small"), ("either of small", "cmp: other of small"), ("both either", "cmp: same")]),
    ("Text and JSON", &[
        ("both either", "print: | print: style"),
        ("JSON", "read_json: type"),
    ]),
    ("Values in turn", &[("numbers number", "into_iter: ends | iter: ends | iter_mut: ends")]),
    ("Lists side by side", &[("lists", "into_iter_swap: ends | iter_swap: ends | iter_swap_mut: ends")]),
    ("Lists in turn", &[("lists of numbers", "into_iter_chain: ends | iter_chain: ends | iter_chain_mut: ends")]),
    ("The list of an Either", &[
        ("either of lists", "into_iter_swap: ends | iter_swap: ends | iter_swap_mut: ends"),
        ("either of lists of numbers", "into_iter_inner: ends | iter_inner: ends | iter_inner_mut: ends"),
    ]),
    ("Collected pairs", &[
        ("values", "collect: Vec | collect: VecDeque | collect: IndexSet | collect: HashSet | collect: BTreeSet"),
        ("entries", "collect: IndexMap | collect: HashMap | collect: BTreeMap"),
        ("values of either", "collect: Vec | collect: VecDeque | collect: IndexSet | collect: HashSet | collect: BTreeSet"),
        ("entries of either", "collect: IndexMap | collect: HashMap | collect: BTreeMap"),
    ]),
    ("Containers and pointers", &[("either of lists of numbers", "extend: list"), ("number", "deref: | deref_mut:")]),
];

/// Kinds of values of which there are many: where each call has its least lines, most of the others are of these.
const RICH: &[&str] = &["lists", "lists", "lists", "lists", "small", "small", "options", "either of lists"];

const STYLES: &[&str] = &[":>5", ":*^5", ":+", ":05", ":?", ":#?"];
const TYPES: &[&str] = &["EitherOrBoth", "EitherOrBoth<u8, char>", "Either", "Either<u8, char>"];
const JSON: &[&str] = &[
    "{\"Left\":1}", "{\"Right\":-2}", "{\"Both\":[1,2]}", "{\"Both\":[1]}", "{\"Both\":[1,2,3]}", "{\"Both\":1}", "{\"Left\":[1,2]}",
    "{\"Left\":1,\"Right\":2}", "{\"Left\":1} 2", "{}", "\"Left\"", "null", "{\"Left\":1", " { \"Both\" : [ 1 , 2 ] } ", "{\"left\":1}",
    "{\"Left\":2147483648}", "{\"Left\":-2147483648}", "{\"Left\":\"1\"}", "{\"Right\":null}", "[\"Left\",1]", "{\"Left\":1}}", "",
    "{\"Both\":[1,\"c\"]}", "{\"Right\":\"c\"}", "{\"Right\":\"cc\"}", "{\"Both\":[\"c\",1]}", "{\"Left\":256}", "{\"Left\":255}", "{\"Up\":1}",
];

/// A generator of numbers (xorshift).
struct Random(u64);

impl Random {
    fn below(&mut self, count: usize) -> usize {
        self.0 ^= self.0 << 13;
        self.0 ^= self.0 >> 7;
        self.0 ^= self.0 << 17;
        (self.0 >> 11) as usize % count
    }

    fn one<'a>(&mut self, of: &[&'a str]) -> &'a str {
        of[self.below(of.len())]
    }

    fn one_of<'a>(&mut self, of: &[&'a [&'static str]]) -> &'a [&'static str] {
        of[self.below(of.len())]
    }

    fn function(&mut self) -> &'static str {
        self.one(&["next", "double", "negate", "same"])
    }

    fn test(&mut self) -> &'static str {
        self.one(&["even", "positive", "always", "never"])
    }

    fn ends(&mut self) -> String {
        let ends: Vec<&str> = (0..self.below(7)).map(|_| self.one(&["front", "back"])).collect();
        ends.join(" ")
    }
}

/// The types of what is held: numbers on both sides, or a `u8` on the left and a `char` on the right.
#[derive(Clone, Copy, PartialEq)]
enum Types {
    Numbers,
    Mixed,
}

/// A value of the left or of the right type.
fn left(r: &mut Random, types: Types) -> String {
    match (types, r.below(16)) {
        (Types::Numbers, 0) => r.one(&["2147483647", "-2147483648", "2147483646", "-2147483647", "1073741824"]).into(),
        (Types::Numbers, _) => (r.below(14) as i32 - 5).to_string(),
        (Types::Mixed, 0) => r.one(&["255u8", "128u8", "127u8"]).into(),
        (Types::Mixed, _) => format!("{}u8", r.below(10)),
    }
}

fn right(r: &mut Random, types: Types) -> String {
    match types {
        Types::Numbers => left(r, types),
        Types::Mixed => format!("'{}'", r.one(&["a", "b", "c", "m", "y", "z"])),
    }
}

/// What a side holds: of this kind, on the left or on the right.
fn held(r: &mut Random, kind: &str, types: Types, is_left: bool) -> String {
    let side = if is_left { left } else { right };
    match kind {
        "pairs" => format!("({},{})", left(r, types), right(r, types)),
        "entries" if types == Types::Numbers => format!("({},{})", r.below(3), right(r, types)),
        "entries" => format!("({}u8,{})", r.below(3), right(r, types)),
        "options" if r.below(3) == 0 => "None".into(),
        "options" => format!("Some({})", side(r, types)),
        "results" if r.below(3) == 0 => format!("Err({})", right(r, types)),
        "results" => format!("Ok({})", left(r, types)),
        "lists" => list(r, types, is_left),
        "small" if types == Types::Numbers => r.below(4).to_string(),
        "small" if is_left => format!("{}u8", r.below(3)),
        "small" => format!("'{}'", r.one(&["a", "b", "c"])),
        _ => side(r, types),
    }
}

fn list(r: &mut Random, types: Types, is_left: bool) -> String {
    let items: Vec<String> = (0..r.below(5)).map(|_| if is_left { left(r, types) } else { right(r, types) }).collect();
    format!("[{}]", items.join(","))
}

fn both(r: &mut Random, kind: &str, types: Types) -> String {
    let variant = r.one(&["Left", "Right", "Both", "Both"]);
    with_variant(r, variant, kind, types)
}

fn short_either(r: &mut Random, kind: &str, types: Types) -> String {
    let variant = r.one(&["Left", "Right"]);
    with_variant(r, variant, kind, types)
}

fn with_variant(r: &mut Random, variant: &str, kind: &str, types: Types) -> String {
    match variant {
        "Left" => format!("Left({})", held(r, kind, types, true)),
        "Right" => format!("Right({})", held(r, kind, types, false)),
        _ => format!("Both({}, {})", held(r, kind, types, true), held(r, kind, types, false)),
    }
}

/// A list of values of some of these variants.
fn values(r: &mut Random, variants: &[&str], kind: &str, types: Types) -> String {
    let from = r.below(variants.len());
    let some = &variants[..=from];
    let values: Vec<String> = (0..r.below(6))
        .map(|_| {
            let variant = r.one(some);
            with_variant(r, variant, kind, types)
        })
        .collect();
    format!("[{}]", values.join("; "))
}

fn either(r: &mut Random, kind: &str, types: Types) -> String {
    format!("Either::{}", short_either(r, kind, types))
}

fn option(r: &mut Random, types: Types, is_left: bool) -> String {
    held(r, "options", types, is_left)
}

/// A value of a kind.
fn value(r: &mut Random, kind: &str, types: Types) -> String {
    match kind {
        "both" | "numbers" => both(r, "", types),
        "either" | "number" => either(r, "", types),
        "small" | "pairs" | "options" | "results" | "lists" => both(r, kind, types),
        "lists of numbers" => both(r, "lists", types),
        "either of small" => either(r, "small", types),
        "either of pairs" => either(r, "pairs", types),
        "either of options" => either(r, "options", types),
        "either of results" => either(r, "results", types),
        "either of lists" | "either of lists of numbers" => either(r, "lists", types),
        "with left" if r.below(2) == 0 => format!("Left({})", left(r, types)),
        "with right" if r.below(2) == 0 => format!("Right({})", right(r, types)),
        "with left" | "with right" | "with both" => format!("Both({}, {})", left(r, types), right(r, types)),
        "only left" => format!("Left({})", left(r, types)),
        "only right" => format!("Right({})", right(r, types)),
        "either left" => format!("Either::Left({})", left(r, types)),
        "either right" => format!("Either::Right({})", right(r, types)),
        "tuple" => format!("({},{})", left(r, types), right(r, types)),
        "tuple without left" => format!("({},{})", option(r, types, true), right(r, types)),
        "tuple without right" => format!("({},{})", left(r, types), option(r, types, false)),
        "two options" => format!("({},{})", option(r, types, true), option(r, types, false)),
        "result" if r.below(2) == 0 => format!("Ok({})", right(r, types)),
        "result" => format!("Err({})", left(r, types)),
        "values" => {
            let variants = r.one_of(&[&["Left", "Both", "Right"], &["Right", "Left", "Both"]]);
            values(r, variants, "small", types)
        }
        "entries" => {
            let variants = r.one_of(&[&["Left", "Both", "Right"], &["Right", "Left", "Both"]]);
            values(r, variants, "entries", types)
        }
        "values of either" => {
            let variants = r.one_of(&[&["Left", "Right"], &["Right", "Left"]]);
            format!("Either{}", values(r, variants, "small", types))
        }
        "entries of either" => {
            let variants = r.one_of(&[&["Left", "Right"], &["Right", "Left"]]);
            format!("Either{}", values(r, variants, "entries", types))
        }
        "JSON" => r.one(JSON).into(),
        kind => panic!("{kind}"),
    }
}

/// Arguments of a kind, beside a value.
fn args(r: &mut Random, kind: &str, of: &str, types: Types) -> String {
    match kind {
        "f" => r.function().into(),
        "f f" => format!("{}, {}", r.function(), r.function()),
        "test" => r.test().into(),
        "test test" => format!("{}, {}", r.test(), r.test()),
        "test of two" => r.one(&["equal", "less", "never"]).into(),
        "of two" => r.one(&["sum", "difference", "max", "first"]).into(),
        "left" => left(r, types),
        "right" => right(r, types),
        "left right" => format!("{}, {}", left(r, types), right(r, types)),
        "left f" => format!("{}, {}", left(r, types), r.function()),
        "right f" => format!("{}, {}", right(r, types), r.function()),
        "place" => r.one(&["left", "right", "both"]).into(),
        "side" => r.one(&["left", "right"]).into(),
        "other" if of.starts_with("Either") => either(r, "", types),
        "other" => both(r, "", types),
        "small" if of.starts_with("Both") && r.below(4) > 0 => with_variant(r, "Both", "small", types),
        "small" => both(r, "small", types),
        "other of small" => either(r, "small", types),
        "same" => of.into(),
        "style" => r.one(STYLES).into(),
        "type" => r.one(TYPES).into(),
        "ends" => r.ends(),
        "list" => list(r, Types::Numbers, true),
        shape => shape.into(),
    }
}

/// A call on a kind of value with a kind of arguments, and the place of its family.
struct Call {
    family: usize,
    kind: &'static str,
    name: &'static str,
    args: &'static str,
}

/// The kinds of values of a row: a list of those that stand alone, or one kind of several words.
fn kinds(row: &'static str) -> Vec<&'static str> {
    match row {
        "both either" => vec!["both", "either"],
        "numbers number" => vec!["numbers", "number"],
        kind => vec![kind],
    }
}

fn calls() -> Vec<Call> {
    let mut calls = Vec::new();
    for (family, (_, rows)) in FAMILIES.iter().enumerate() {
        for (row, names) in *rows {
            for kind in kinds(row) {
                for entry in names.split('|') {
                    let (name, args) = entry.split_once(':').expect("a call and its arguments");
                    calls.push(Call { family, kind, name: name.trim(), args: args.trim() });
                }
            }
        }
    }
    calls
}

fn line(r: &mut Random, call: &Call) -> String {
    let one_type = call.kind.contains("number");
    let types = if one_type || r.below(4) > 0 { Types::Numbers } else { Types::Mixed };
    let value = value(r, call.kind, types);
    let args = args(r, call.args, &value, types);
    format!("{value}.{}({args})", call.name)
}

/// So many different lines, by families: each with its heading. Each call has at least twenty, or as many as there are.
pub fn families(seed: u64, count: usize) -> Vec<(&'static str, Vec<String>)> {
    let mut r = Random(seed.wrapping_mul(0x9e37_79b9_7f4a_7c15) | 1);
    let calls = calls();
    let mut seen = HashSet::new();
    let mut lines = vec![Vec::new(); calls.len()];
    let mut add = |r: &mut Random, at: usize| {
        for _ in 0..50 {
            let line = line(r, &calls[at]);
            if seen.insert(line.clone()) {
                lines[at].push(line);
                return true;
            }
        }
        false
    };
    let mut made = 0;
    for _ in 0..LEAST {
        for at in 0..calls.len() {
            made += usize::from(made < count && add(&mut r, at));
        }
    }
    while made < count {
        let at = r.below(calls.len());
        let rich = r.one(RICH);
        made += usize::from((calls[at].kind == rich || r.below(32) == 0) && add(&mut r, at));
    }
    let mut families: Vec<(&str, Vec<String>)> = FAMILIES.iter().map(|(heading, _)| (*heading, Vec::new())).collect();
    for (call, lines) in calls.iter().zip(lines) {
        families[call.family].1.extend(lines);
    }
    families
}
