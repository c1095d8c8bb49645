//! `evc camera`: what a describer puts into the field, from motion maps and unit words on disk.

use crate::args::Given;
use crate::json::Json;
use crate::replay::opened;
use crate::report::{Console, Failure, Outcome, Result};
use evc_inter::{evc_camera_motion, map_mv_len, map_scu_len, CameraMotion};
use std::io::{BufReader, Read};
use std::path::{Path, PathBuf};

/// Numbers of two or four bytes each, low byte first.
struct Numbers {
    file: BufReader<Box<dyn Read>>,
    name: String,
    is_at_end: bool,
}

impl Numbers {
    fn open(path: &Path) -> Result<Numbers> {
        let name = path.display().to_string();
        let file = opened(path).map_err(|e| Failure::File(format!("{name}: not read: {e}")))?;
        let file = BufReader::new(file);
        Ok(Numbers {
            file,
            name,
            is_at_end: false,
        })
    }

    /// Fewer than asked for at the end of the file, where bytes may be left that make no number.
    fn read<const N: usize, T>(&mut self, count: usize, of: fn([u8; N]) -> T) -> Result<Vec<T>> {
        let mut bytes = Vec::new();
        let limited = &mut (&mut self.file).take((count * N) as u64);
        let read = limited.read_to_end(&mut bytes);
        read.map_err(|e| Failure::File(format!("{}: not read: {e}", self.name)))?;
        self.is_at_end = bytes.is_empty();
        let whole = bytes
            .chunks_exact(N)
            .filter_map(|bytes| bytes.try_into().ok());
        Ok(whole.map(of).collect())
    }
}

/// What is told of a picture.
fn outcome(k: u64, motion: CameraMotion) -> Outcome {
    let (x, y) = match motion {
        CameraMotion::Moving { x, y } => (Json::Number(x), Json::Number(y)),
        _ => (Json::Null, Json::Null),
    };
    Outcome::done(format!("picture {k}: {motion:#}"))
        .fact("picture", k)
        .fact("camera", &motion.to_string()[..])
        .fact("across", x)
        .fact("down", y)
}

/// The pictures of a pair of files, one after another.
fn pictures(console: &mut Console, sides: (u32, u32), item: &str, pair: &[PathBuf]) -> Result<()> {
    let [mut motion, mut words] = [Numbers::open(&pair[0])?, Numbers::open(&pair[1])?];
    // A side that no call takes has no units, and is refused by the call.
    let [numbers, units] = [map_mv_len, map_scu_len].map(|len| len(sides.0, sides.1).unwrap_or(0));
    for k in 0.. {
        let map_mv = motion.read(numbers, i16::from_le_bytes)?;
        let map_scu = words.read(units, u32::from_le_bytes)?;
        if k > 0 && motion.is_at_end && words.is_at_end {
            break;
        }
        let camera = evc_camera_motion(sides.0, sides.1, &map_mv, &map_scu);
        let camera = camera.map_err(Failure::at(format!("picture {k}")))?;
        console.item(item, outcome(k, camera));
        if console.is_closed {
            break; // nobody reads on, and nothing else is left to do
        }
    }
    Ok(())
}

pub fn run(given: &Given, console: &mut Console) -> std::result::Result<(), String> {
    let files = given.files();
    let sides = given
        .size("--size")?
        .ok_or("--size WxH is needed: a map does not say it")?;
    if files.is_empty() || files.len() % 2 == 1 {
        return Err("files come in pairs: a motion map, then its unit words".into());
    }
    for pair in files.chunks(2) {
        let item = pair[0].display().to_string();
        if let Err(failure) = pictures(console, sides, &item, pair) {
            console.item(&item, failure.into());
        }
    }
    Ok(())
}
