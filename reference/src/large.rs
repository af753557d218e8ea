//! Large meshes with the hash of their answer.

use std::io::{Error, Result};
use std::path::Path;

use crate::generators::large::SHAPES;
use crate::input::LARGEST;
use crate::random::Random;
use crate::{call, files};

/// A mesh of a shape as the text of a call, with the most that may be lent.
fn mesh(seed: u64, triangles: usize, name: &str) -> Option<Vec<u8>> {
    let place = SHAPES.iter().position(|s| s.0 == name)?;
    let mut r = Random::new(seed, place as u64);
    let input = SHAPES[place].1(&mut r, triangles);
    Some(call::write(LARGEST, &input))
}

fn answer_hash(mesh: &[u8]) -> Result<String> {
    let answer = call::reply(mesh).ok_or_else(|| Error::other("not a call"))?;
    Ok(format!("{:016x}", files::hash(&answer)))
}

/// A mesh of each shape, of about so many triangles: into files with their hashes,
/// or only a line `SEED TRIANGLES SHAPE HASH` for each.
pub fn meshes(seed: u64, triangles: usize, folder: Option<&Path>) -> Result<()> {
    for (name, _) in SHAPES {
        let text = mesh(seed, triangles, name).ok_or_else(|| Error::other("no shape"))?;
        let hash = answer_hash(&text)?;
        println!("{seed} {triangles} {name} {hash}");
        if let Some(folder) = folder {
            std::fs::create_dir_all(folder)?;
            let path = folder.join(format!("{name}-{triangles}-{seed}.call"));
            std::fs::write(path.with_extension("hash"), hash + "\n")?;
            std::fs::write(path, text)?;
        }
    }
    Ok(())
}

/// Whether every line of a list has the hash of its mesh.
pub fn list_agrees(list: &[u8]) -> Result<bool> {
    let list = std::str::from_utf8(list).map_err(Error::other)?;
    for line in list.lines() {
        let words: Vec<&str> = line.split(' ').collect();
        let [seed, triangles, name, hash] = words[..] else {
            return Err(Error::other("not a line of a list"));
        };
        let seed = seed.parse().map_err(Error::other)?;
        let triangles = triangles.parse().map_err(Error::other)?;
        let text = mesh(seed, triangles, name).ok_or_else(|| Error::other("no shape"))?;
        if answer_hash(&text)? != hash {
            println!("differs: {line}");
            return Ok(false);
        }
    }
    Ok(true)
}
