//! Reads the marks of src/patched.rs. Used by the build script and by a test.
//!
//! A patch stands between `// patch: NAME` and `// end patch`, and may stand within
//! another, whose lines it changes. Within it a line `// was: LINE` keeps a line that
//! it replaces, indentation included.

/// The text with the patches taken back for which `back` says so; a patch within one
/// that is taken back goes with it. A mark that does not close, or closes nothing, is
/// an error.
pub fn take_back(text: &str, back: impl Fn(&str) -> bool) -> Result<String, String> {
    let mut out = String::new();
    // Of the patches that are open, whether each is taken back.
    let mut open: Vec<bool> = Vec::new();
    for line in text.lines() {
        let bare = line.trim_start();
        if let Some(name) = bare.strip_prefix("// patch: ") {
            open.push(back(name));
        } else if bare == "// end patch" {
            if open.pop().is_none() {
                return Err(format!("end of no patch: {line}"));
            }
        } else if let Some(was) = bare.strip_prefix("// was: ") {
            match open.split_last() {
                None => return Err(format!("outside a patch: {line}")),
                Some((true, outer)) if !outer.contains(&true) => out += &format!("{was}\n"),
                _ => {}
            }
        } else if !open.contains(&true) {
            out += &format!("{line}\n");
        }
    }
    if open.is_empty() {
        Ok(out)
    } else {
        Err("a patch does not end".to_string())
    }
}

/// The names of the patches in their order.
pub fn names(text: &str) -> Vec<&str> {
    text.lines()
        .filter_map(|line| line.trim_start().strip_prefix("// patch: "))
        .collect()
}
