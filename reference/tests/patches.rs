//! The published and the patched module differ by the marked patches alone, and the second end's is one rule.

#[path = "../marks.rs"]
mod marks;

const PUBLISHED: &str = include_str!("../src/published.rs");
const PATCHED: &str = include_str!("../src/patched.rs");

#[test]
fn without_its_patches_the_patched_module_is_the_published_one() {
    assert_eq!(marks::take_back(PATCHED, |_| true).unwrap(), PUBLISHED);
}

const NAMES: [&str; 14] = [
    "cosine",
    "limit",
    "off-front",
    "lent",
    "second-end",
    "quality",
    "joints",
    "grid",
    "birth",
    "trials",
    "allowance",
    "sheet",
    "preview",
    "trace",
];

#[test]
fn every_patch_is_one_of_fourteen() {
    for name in marks::names(PATCHED) {
        assert!(NAMES.contains(&name));
    }
    for name in NAMES {
        assert!(marks::names(PATCHED).contains(&name));
    }
}

/// The lines that the patch of this name puts in the place of others, and those others.
fn replaced(name: &str) -> (Vec<String>, Vec<String>) {
    let lines = |text: String| text.lines().map(|l| l.trim().to_string()).collect();
    let new: Vec<String> = lines(marks::take_back(PATCHED, |_| false).unwrap());
    let old: Vec<String> = lines(marks::take_back(PATCHED, |patch| patch == name).unwrap());
    assert_eq!(new.len(), old.len());
    let pairs = new.into_iter().zip(old);
    pairs.filter(|(new, old)| new != old).unzip()
}

#[test]
fn the_second_end_turns_right_and_nothing_else_changes() {
    let (new, old) = replaced("second-end");
    assert_eq!(
        new,
        [
            "fn edge_side_candidates(&self, p: usize, other: usize, target: f64, left: bool) -> Vec<usize> {",
            "ideals.push(if left { [-u[1], u[0]] } else { [u[1], -u[0]] });",
            "let mut ca = mesh.edge_side_candidates(a, b, target, true);",
            "let mut cb = mesh.edge_side_candidates(b, a, target, false);",
        ]
    );
    assert_eq!(
        old,
        [
            "fn edge_side_candidates(&self, p: usize, other: usize, target: f64) -> Vec<usize> {",
            "ideals.push([-u[1], u[0]]);",
            "let mut ca = mesh.edge_side_candidates(a, b, target);",
            "let mut cb = mesh.edge_side_candidates(b, a, target);",
        ]
    );
}

/// The lines of one text that the other has not, in their order.
fn fresh(text: &str, other: &str) -> Vec<String> {
    let lines = text.lines().map(str::trim);
    let mut rest: Vec<&str> = other.lines().map(str::trim).collect();
    let mut out = Vec::new();
    for line in lines {
        match rest.iter().position(|l| *l == line) {
            Some(place) => drop(rest.remove(place)),
            None => out.push(line.to_string()),
        }
    }
    out
}

#[test]
fn the_set_stands_in_four_tests_and_nothing_else_changes() {
    let new = marks::take_back(PATCHED, |_| false).unwrap();
    let old = marks::take_back(PATCHED, |patch| patch == "quality").unwrap();
    let tests = [
        "(SIDE_MAX_FACTOR + 0.8) * target,",
        "if dist < SIDE_MIN_FACTOR * target || dist > SIDE_MAX_FACTOR * target {",
        "if sj < MIN_QUAD_SJ || k > MAX_QUAD_COSINE {",
        "for &(_, quad) in pairs.iter().take(MAX_PAIR_TRIALS) {",
    ];
    assert_eq!(fresh(&old, &new), tests);
    let read = |line: &&String| line.contains("quality.") && !line.starts_with("//");
    let added = fresh(&new, &old);
    let added: Vec<&String> = added.iter().filter(read).collect();
    assert_eq!(
        added,
        [
            "(self.quality.side_high + 0.8) * target,",
            "if dist < self.quality.side_low * target || dist > self.quality.side_high * target {",
            "if sj < mesh.quality.least_jacobian || k > mesh.quality.largest_cosine {",
            "for &(_, quad) in pairs.iter().take(mesh.quality.pairs) {",
        ]
    );
}

#[test]
fn joints_stand_in_two_tests_and_replace_nothing() {
    let new = marks::take_back(PATCHED, |_| false).unwrap();
    let old = marks::take_back(PATCHED, |patch| patch == "joints").unwrap();
    assert!(fresh(&old, &new).is_empty());
    let added = fresh(&new, &old);
    let read = |line: &&String| line.contains("self.locked");
    let added: Vec<&String> = added.iter().filter(read).collect();
    assert_eq!(
        added,
        [
            "if self.locked.contains(&edge) && !sides.contains(&edge) {",
            "if self.locked.contains(&(u.min(v), u.max(v))) {",
        ]
    );
}

#[test]
fn the_grid_profile_inserts_nothing_and_changes_nothing_else() {
    let new = marks::take_back(PATCHED, |_| false).unwrap();
    let old = marks::take_back(PATCHED, |patch| patch == "grid").unwrap();
    assert_eq!(fresh(&old, &new), ["if !size_mismatch(span, target) {"; 2]);
    let added = fresh(&new, &old);
    let read = |line: &&String| line.contains("mesh.grid |");
    let added: Vec<&String> = added.iter().filter(read).collect();
    assert_eq!(added, ["if mesh.grid || !size_mismatch(span, target) {"; 2]);
    // Areas are added without sign as published.
    assert!(PUBLISHED.contains("area += cross(a, b, c).abs() / 2.0;"));
}

#[test]
fn births_are_noted_and_change_nothing() {
    let new = marks::take_back(PATCHED, |_| false).unwrap();
    let old = marks::take_back(PATCHED, |patch| patch == "birth").unwrap();
    assert!(fresh(&old, &new).is_empty());
    let added = fresh(&new, &old);
    let acts = |line: &&String| line.contains("mesh.") && !line.starts_with("//");
    let added: Vec<&String> = added.iter().filter(acts).collect();
    assert_eq!(
        added,
        [
            "births: mesh.births,",
            "mesh.round += 1;",
            "let (round, replaced) = (mesh.round, region.len());",
            "mesh.births.push(Birth {",
        ]
    );
}

#[test]
fn trials_are_counted_in_one_place_and_change_nothing() {
    let new = marks::take_back(PATCHED, |_| false).unwrap();
    let old = marks::take_back(PATCHED, |patch| patch == "trials").unwrap();
    assert!(fresh(&old, &new).is_empty());
    let mut added = fresh(&new, &old);
    added.retain(|line| !line.starts_with("//"));
    assert_eq!(added, ["pub trials: usize,", "refusals.trials += 1;"]);
    // Once the owner of the edge is found, and before anything can end the trial.
    let owner = "let seed = mesh.tri_owner(edge.0, edge.1).ok_or(Refusal::Placement)?;";
    let lines: Vec<&str> = new.lines().map(str::trim).collect();
    let place = lines.iter().position(|l| *l == "refusals.trials += 1;");
    assert_eq!(lines[place.unwrap() - 1], owner);
}

#[test]
fn the_limit_on_attempts_is_handed_in_and_nothing_else_changes() {
    let new = marks::take_back(PATCHED, |_| false).unwrap();
    let old = marks::take_back(PATCHED, |patch| patch == "allowance").unwrap();
    assert!(fresh(&old, &new).is_empty());
    let mut added = fresh(&new, &old);
    added.retain(|line| !line.starts_with("//"));
    assert_eq!(
        added,
        [
            "most_attempts: Option<usize>,",
            "most_attempts: None,",
            "most_attempts: Option<usize>,",
            "mesh.most_attempts = most_attempts;",
            "let max_attempts = mesh.most_attempts.unwrap_or(max_attempts);",
        ]
    );
    // Straight behind the usual one.
    let lines: Vec<&str> = new.lines().map(str::trim).collect();
    let place = lines.iter().position(|l| *l == added[4]);
    assert_eq!(
        lines[place.unwrap() - 1],
        "let max_attempts = 200 * tris_len + 10_000;"
    );
}

#[test]
fn flips_are_counted_and_one_edge_alone_is_tried_once_and_nothing_else_changes() {
    let new = marks::take_back(PATCHED, |_| false).unwrap();
    let old = marks::take_back(PATCHED, |patch| patch == "preview").unwrap();
    assert!(fresh(&old, &new).is_empty());
    let mut added = fresh(&new, &old);
    added.retain(|line| !line.starts_with("//") && *line != "}" && *line != "break 'outer;");
    assert_eq!(
        added,
        [
            "only: Option<(usize, usize)>,",
            "flips: usize,",
            "only: None,",
            "flips: 0,",
            "self.flips += 1;",
            "pub flips: usize,",
            "only: Option<(usize, usize)>,",
            "mesh.only = only;",
            "flips: mesh.flips,",
            "candidates.retain(|edge| mesh.only.is_none_or(|only| only == *edge));",
            "if mesh.only.is_some() {",
        ]
    );
    // Where nothing can refuse the flip any more, and where a quad is placed.
    let lines: Vec<&str> = new.lines().map(str::trim).collect();
    let place = |line: &str| lines.iter().position(|l| *l == line).unwrap();
    let flip = place("self.flips += 1;");
    assert_eq!(lines[flip + 1..flip + 3], ["true", "}"]);
    let only = place("if mesh.only.is_some() {");
    assert_eq!(lines[only - 2], "Ok(()) => {");
    assert_eq!(lines[only + 1..only + 3], ["break 'outer;", "}"]);
}

#[test]
fn entries_are_noted_where_nothing_else_can_refuse_the_step_and_change_nothing() {
    let new = marks::take_back(PATCHED, |_| false).unwrap();
    let old = marks::take_back(PATCHED, |patch| patch == "trace").unwrap();
    assert!(fresh(&old, &new).is_empty());
    let added = fresh(&new, &old);
    let acts = |line: &&String| line.contains("note(");
    let added: Vec<&String> = added.iter().filter(acts).collect();
    assert_eq!(
        added,
        [
            "self.cannot_note(SPLIT_WORDS);",
            "fn cannot_note(&mut self, words: usize) -> bool {",
            "fn note(&mut self, entry: &[usize]) {",
            "self.note(&[1, id, halves[0], halves[1], halves[2], halves[3]]);",
            "if self.cannot_note(FLIP_WORDS) {",
            "self.note(&[2, u.min(v), u.max(v)]);",
            "if mesh.cannot_note(QUAD_WORDS + region.len()) {",
            "mesh.note(&[&head, &region[..]].concat());",
        ]
    );
    // A quad's test comes behind that of its slot, a split's behind those of 8 and 9.
    let lines: Vec<&str> = new.lines().map(str::trim).collect();
    let place = |line: &str| lines.iter().position(|l| *l == line).unwrap();
    let quad = place("if mesh.cannot_note(QUAD_WORDS + region.len()) {");
    assert_eq!(
        lines[quad - 3..quad - 1],
        ["mesh.want = Some(9);", "return Err(last);"]
    );
    let split = place("self.cannot_note(SPLIT_WORDS);");
    assert_eq!(
        lines[split - 3..split],
        ["self.want = Some(9);", "}", "if self.want.is_none() {"]
    );
}

#[test]
fn a_patch_within_a_patch() {
    let text = "// patch: a\n// was: 1\n// patch: b\n// was: 2\n3\n// end patch\n// end patch\n";
    let taken = |names: &str| marks::take_back(text, |patch| names.contains(patch)).unwrap();
    assert_eq!(
        [taken(""), taken("b"), taken("a"), taken("ab")],
        ["3\n", "2\n", "1\n", "1\n"]
    );
}

#[test]
fn the_patches_are_small() {
    let kept = marks::take_back(PATCHED, |_| false).unwrap();
    assert!(kept.lines().count() < PUBLISHED.lines().count() + 240);
}

#[test]
fn broken_marks_are_noticed() {
    for text in [
        "// patch: a\n",
        "// end patch\n",
        "// was: x\n",
        "// patch: a\n// patch: b\n",
    ] {
        assert!(marks::take_back(text, |_| true).is_err());
    }
}
