//! Inputs and answers in files.

use std::io::{Error, Result};
use std::path::{Path, PathBuf};

use crate::generators::{self, KINDS, SMALL, TEXT};
use crate::random::Random;
use crate::{accept, call, damage, replays, text};

/// FNV-1a, 64 bits.
pub fn hash(bytes: &[u8]) -> u64 {
    let step = |h: u64, b: &u8| (h ^ u64::from(*b)).wrapping_mul(0x100000001b3);
    bytes.iter().fold(0xcbf29ce484222325, step)
}

/// Texts of the program with their answers: all kinds and damaged texts in turn, or
/// one of them. Two of three have room for a few triangles only.
pub fn cases(seed: u64, count: u64, folder: &Path, asked: Option<&str>) -> Result<()> {
    std::fs::create_dir_all(folder)?;
    for case in 0..count {
        let turn = (case % (KINDS.len() as u64 + 1)) as usize;
        let name = asked.unwrap_or_else(|| KINDS.get(turn).map_or("damaged", |k| k.0));
        let number = if asked.is_some() {
            case
        } else {
            case / (KINDS.len() as u64 + 1)
        };
        let room = if number % 3 == 2 { TEXT } else { SMALL };
        let mut r = Random::new(seed, case);
        let whole = match name {
            "damaged" => {
                let kind = generators::of_case(None, r.bits());
                let input = kind.1(&mut r, &room);
                damage::damaged(&text::write(&input), &mut r)
            }
            _ => text::write(&generators::kind(name)?.1(&mut r, &room)),
        };
        let path = folder.join(format!("{name}-{number:04}.in"));
        std::fs::write(path.with_extension("out"), text::reply(&whole))?;
        std::fs::write(path, whole)?;
    }
    Ok(())
}

/// Recomputes every stored answer of a folder. Says how many agree.
pub fn check(folder: &Path) -> Result<()> {
    let mut paths: Vec<PathBuf> = Vec::new();
    for entry in std::fs::read_dir(folder)? {
        paths.push(entry?.path());
    }
    paths.sort();
    let (mut agree, mut differ) = (0, 0);
    for path in paths {
        let Some(same) = agrees(&path)? else {
            continue;
        };
        if same {
            agree += 1;
        } else {
            differ += 1;
            println!("differs: {}", path.display());
        }
    }
    println!("{agree} agree, {differ} differ");
    if differ > 0 || agree == 0 {
        return Err(Error::other("stored answers differ, or there are none"));
    }
    Ok(())
}

/// Whether a stored input has its stored answer; `None` for other files.
fn agrees(path: &Path) -> Result<Option<bool>> {
    let extension = path.extension().and_then(|e| e.to_str());
    let given = std::fs::read(path)?;
    let answer = match extension {
        Some("in") => text::reply(&given),
        Some("call") => call::reply(&given).ok_or_else(|| Error::other("not a call"))?,
        Some("replay") => replays::reply(&given).ok_or_else(|| Error::other("not a replay"))?,
        Some("accepts") => return Ok(Some(accept::stored::reply(&given).as_ref() == Some(&given))),
        Some("list") => return crate::large::list_agrees(&given).map(Some),
        _ => return Ok(None),
    };
    if let Ok(stored) = std::fs::read(path.with_extension("out")) {
        return Ok(Some(stored == answer));
    }
    let stored = std::fs::read_to_string(path.with_extension("hash"))?;
    Ok(Some(stored.trim() == format!("{:016x}", hash(&answer))))
}
