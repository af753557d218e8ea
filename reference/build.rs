//! Writes the patched module without some of its patches, for `compare`.

#[allow(dead_code)]
#[path = "marks.rs"]
mod marks;

fn main() {
    println!("cargo:rerun-if-changed=marks.rs");
    println!("cargo:rerun-if-changed=src/patched.rs");
    let text = std::fs::read_to_string("src/patched.rs").expect("src/patched.rs");
    let out = std::env::var("OUT_DIR").expect("OUT_DIR");
    // What the change requests ask for, which by default changes nothing.
    let asked = [
        "quality",
        "joints",
        "grid",
        "birth",
        "trials",
        "allowance",
        "sheet",
        "preview",
        "trace",
    ];
    let variants: [(&str, &[&str]); 5] = [
        ("without_asked", &[]),
        ("without_second_end", &["second-end"]),
        ("without_cosine", &["second-end", "cosine"]),
        ("without_off_front", &["second-end", "off-front"]),
        ("bare", &["second-end", "cosine", "off-front"]),
    ];
    for (name, back) in variants {
        let taken = |patch: &str| asked.contains(&patch) || back.contains(&patch);
        let text = marks::take_back(&text, taken).expect("marks");
        // An included file has no inner comments.
        let lines = text.lines().filter(|line| !line.starts_with("//!"));
        let text: String = lines.map(|line| format!("{line}\n")).collect();
        std::fs::write(format!("{out}/{name}.rs"), text).expect("a file in OUT_DIR");
    }
}
