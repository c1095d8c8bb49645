//! Clips: .y4m with 10-bit 4:2:0 samples, one picture at a time.

use crate::report::{Failure, Result};
use crate::shell::quoted_file;
use evc_inter::{Flip, Picture, MAX_SIDE};
use std::fs::File;
use std::io::{self, BufRead, BufReader, Read, Write};
use std::path::{Path, PathBuf};

const MAGIC: &str = "YUV4MPEG2";

/// Y, U and V by their numbers.
pub const PLANES: [char; 3] = ['Y', 'U', 'V'];

/// What a clip says of its pictures, carried over to what is written: frame rate, field order, aspect,
/// colour range and all else.
#[derive(Clone, Debug, PartialEq)]
pub struct Header {
    pub sides: (u32, u32),
    tags: String,
}

impl Header {
    /// For pictures that come from no clip.
    pub fn new(sides: (u32, u32)) -> Header {
        let (w, h) = sides;
        let tags = format!("W{w} H{h} F25:1 Ip A1:1 C420p10 XYSCSS=420P10 XCOLORRANGE=LIMITED");
        Header { sides, tags }
    }

    /// A header's line.
    fn read(line: &str, path: &Path) -> Result<Header> {
        let bad = |what: &str| Failure::File(format!("{what}; {}", taken_copy(path, "")));
        let Some(tags) = line.strip_prefix(MAGIC).filter(|tags| {
            tags.is_empty() || tags.starts_with([' ', '\r', '\n']) // not YUV4MPEG21
        }) else {
            return Err(bad(&format!(
                "not a y4m clip: it does not begin with {MAGIC}; if ffmpeg can read it"
            )));
        };
        let Some(tags) = tags.strip_suffix('\n') else {
            return Err(Failure::File("its header's line has no end".into()));
        };
        if tags.ends_with('\r') {
            return Err(Failure::File(
                "its header ends with CR LF: the clip was changed as if it were text, by a copy in text mode say, \
                 and its samples with it; copy it again, in binary"
                    .into(),
            ));
        }
        let mut seen: Vec<(&str, &str)> = Vec::new();
        for word in tags.split(' ').filter(|word| !word.is_empty()) {
            let (tag, value) = word.split_at(word.chars().next().map_or(0, char::len_utf8));
            let comment = tag == "X" && !value.starts_with("COLORRANGE=");
            if !comment && seen.iter().any(|(other, _)| *other == tag) {
                return Err(Failure::File(format!(
                    "its header has the tag {tag} twice, and nothing says which one holds"
                )));
            }
            if !comment {
                seen.push((tag, value));
            }
        }
        let tag = |tag: &str| Some(seen.iter().find(|(other, _)| *other == tag)?.1);
        match tag("C") {
            Some("420p10") => {}
            Some(other) => {
                return Err(bad(&format!(
                    "its samples are C{other}; 10-bit 4:2:0 is taken, C420p10"
                )))
            }
            None => {
                return Err(bad(
                    "its samples are 8-bit, for want of a C tag; 10-bit 4:2:0 is taken, C420p10",
                ))
            }
        }
        let (Some(w), Some(h)) = (tag("W"), tag("H")) else {
            return Err(Failure::File(
                "its header gives no width or no height".into(),
            ));
        };
        let (Ok(pic_w), Ok(pic_h)) = (w.parse(), h.parse()) else {
            return Err(Failure::File(format!(
                "its header gives no size: W{w} H{h}"
            )));
        };
        Ok(Header {
            sides: (pic_w, pic_h),
            tags: tags.trim_start().into(),
        })
    }

    pub fn is_full_range(&self) -> bool {
        self.tags.split(' ').any(|tag| tag == "XCOLORRANGE=FULL")
    }

    /// The header of the flipped clip: top to bottom, the rows of one field become those of the other.
    pub fn flipped(&self, flip: Flip) -> Header {
        let turned = |tag| match (flip, tag) {
            (Flip::TopBottom, "It") => "Ib",
            (Flip::TopBottom, "Ib") => "It",
            (_, tag) => tag,
        };
        let tags: Vec<_> = self.tags.split(' ').map(turned).collect();
        Header {
            tags: tags.join(" "),
            ..*self
        }
    }

    pub fn write(&self, file: &mut impl Write) -> io::Result<()> {
        writeln!(file, "{MAGIC} {}", self.tags)
    }
}

/// The ffmpeg line that makes a copy which is taken.
fn taken_copy(path: &Path, filter: &str) -> String {
    let stem = match path == Path::new("-") {
        true => "input".into(),
        false => path.file_stem().unwrap_or_default().to_string_lossy(),
    };
    let copy = path.with_file_name(format!("{stem}-10bit.y4m"));
    let [from, to] = [path, &copy].map(quoted_file);
    format!("a copy that is taken: ffmpeg -i {from} {filter}-pix_fmt yuv420p10le -strict -1 {to}")
}

/// A clip that is read picture by picture.
pub struct Clip {
    path: PathBuf,
    file: Box<dyn BufRead>,
    pub header: Header,
    /// How many pictures have been read.
    pub frames: u64,
}

impl Clip {
    /// A file, or standard input by the name `-`.
    pub fn open(path: &Path) -> Result<Clip> {
        let file: Box<dyn BufRead> = match path == Path::new("-") {
            true => Box::new(io::stdin().lock()),
            false => {
                let file = File::open(path).map_err(|e| Failure::File(format!("not read: {e}")))?;
                Box::new(BufReader::new(file))
            }
        };
        Clip::new(path, file)
    }

    fn new(path: &Path, mut file: Box<dyn BufRead>) -> Result<Clip> {
        let Some(first) = line(&mut file)? else {
            return Err(Failure::File("it is empty".into()));
        };
        let header = Header::read(&first, path)?;
        let path = path.into();
        Ok(Clip {
            path,
            file,
            header,
            frames: 0,
        })
    }

    /// A picture to read into.
    pub fn picture(&self) -> Result<Picture> {
        let (w, h) = self.header.sides;
        Picture::new(w, h).map_err(|refusal| Failure::Refused {
            place: format!("{w} by {h}"),
            refusal,
            remedy: [w, h]
                .iter()
                .all(|side| (1..=MAX_SIDE).contains(side))
                .then(|| {
                    let filter = "-vf 'pad=ceil(iw/4)*4:ceil(ih/4)*4' ";
                    taken_copy(&self.path, filter)
                }),
        })
    }

    /// Reads the next picture, not padded, and gives its own tags; none at the end of the clip.
    pub fn read(&mut self, picture: &mut Picture) -> Result<Option<String>> {
        let Some(frame) = line(&mut self.file)? else {
            return Ok(None);
        };
        let n = self.frames;
        let tags = frame
            .strip_prefix("FRAME")
            .and_then(|tags| tags.strip_suffix('\n'));
        let tags =
            tags.filter(|tags| (tags.is_empty() || tags.starts_with(' ')) && !tags.ends_with('\r'));
        let Some(tags) = tags else {
            return Err(Failure::File(format!(
                "frame {n} does not begin with the line FRAME: the clip is damaged or no clip"
            )));
        };
        for (plane, name) in picture.planes.iter_mut().zip(PLANES) {
            let mut bytes = vec![0; 2 * plane.cfg().width];
            for (y, row) in plane.rows_mut().enumerate() {
                self.file.read_exact(&mut bytes).map_err(|e| {
                    Failure::File(match e.kind() {
                        io::ErrorKind::UnexpectedEof => {
                            format!("cut off: it ends in frame {n}, row {y} of plane {name}")
                        }
                        _ => format!("frame {n}: not read: {e}"),
                    })
                })?;
                for (sample, pair) in row.iter_mut().zip(bytes.chunks_exact(2)) {
                    *sample = u16::from_le_bytes([pair[0], pair[1]]);
                }
            }
        }
        self.frames += 1;
        Ok(Some(tags.into()))
    }

    /// Frame `n`, counted from 0, of a clip that has not been read yet.
    pub fn frame(&mut self, n: u64) -> Result<Picture> {
        let mut picture = self.picture()?;
        while self.frames <= n {
            if self.read(&mut picture)?.is_none() {
                return Err(Failure::File(match self.frames {
                    0 => "there is no picture behind the header".into(),
                    frames => format!(
                        "there is no frame {n}: the clip has frames 0 to {}",
                        frames - 1
                    ),
                }));
            }
        }
        Ok(picture)
    }
}

/// A line of a clip, with its end if it has one within 1024 bytes; none at the end of the clip.
fn line(file: &mut impl BufRead) -> Result<Option<String>> {
    let mut bytes = Vec::new();
    let limited = &mut file.take(1024);
    limited
        .read_until(b'\n', &mut bytes)
        .map_err(|e| Failure::File(format!("not read: {e}")))?;
    let line = String::from_utf8_lossy(&bytes).into_owned();
    Ok(Some(line).filter(|line| !line.is_empty()))
}

/// Writes a picture behind a header.
pub fn write_frame(file: &mut impl Write, tags: &str, picture: &Picture) -> io::Result<()> {
    writeln!(file, "FRAME{tags}")?;
    let mut bytes = Vec::new();
    for row in picture.planes.iter().flat_map(|plane| plane.rows()) {
        bytes.clear();
        bytes.extend(row.iter().flat_map(|sample| sample.to_le_bytes()));
        file.write_all(&bytes)?;
    }
    Ok(())
}

/// A clip of one picture.
pub fn write(file: &mut impl Write, header: &Header, picture: &Picture) -> io::Result<()> {
    header.write(file)?;
    write_frame(file, "", picture)
}

#[cfg(test)]
mod tests {
    use super::*;
    use evc_inter::Refusal;

    fn bytes(header: &str, samples: usize) -> Vec<u8> {
        let mut bytes = format!("{header}\nFRAME\n").into_bytes();
        bytes.extend((0..samples).flat_map(|k| ((k % 1024) as u16).to_le_bytes()));
        bytes
    }

    fn clip(bytes: &[u8]) -> Result<Clip> {
        Clip::new(
            Path::new("reel 7.mov"),
            Box::new(io::Cursor::new(bytes.to_vec())),
        )
    }

    fn first(bytes: &[u8]) -> Result<Picture> {
        clip(bytes)?.frame(0)
    }

    #[test]
    fn written_and_read() {
        let tags = "W12 H8 F24000:1001 It A10:11 C420p10 XYSCSS=420P10 XCOLORRANGE=FULL XNOTE";
        let mut two = bytes(&format!("YUV4MPEG2 {tags}"), 144);
        two.extend(b"FRAME Ib\n");
        two.extend((0..144u16).flat_map(|k| (1000 - k).to_le_bytes()));
        let mut clip = clip(&two).unwrap();
        assert_eq!(
            (clip.header.sides, clip.header.is_full_range()),
            ((12, 8), true)
        );
        let mut picture = clip.picture().unwrap();
        assert_eq!(clip.read(&mut picture), Ok(Some("".into())));
        assert_eq!(picture.planes[0].row(1)[0], 12);
        assert_eq!(picture.planes[2].row(3)[5], 143);
        let mut again = Vec::new();
        clip.header.write(&mut again).unwrap();
        write_frame(&mut again, "", &picture).unwrap();
        assert_eq!(clip.read(&mut picture), Ok(Some(" Ib".into())));
        write_frame(&mut again, " Ib", &picture).unwrap();
        assert_eq!(clip.read(&mut picture), Ok(None));
        assert!(again == two);

        let flipped = |flip| clip.header.flipped(flip).tags;
        assert_eq!(flipped(Flip::LeftRight), tags);
        assert_eq!(flipped(Flip::TopBottom), tags.replace("It", "Ib"));
        assert_eq!(
            clip.header
                .flipped(Flip::TopBottom)
                .flipped(Flip::TopBottom),
            clip.header
        );
        let made = Header::new((12, 8));
        let line = format!("YUV4MPEG2 {}\n", made.tags);
        assert_eq!(Header::read(&line, Path::new("made")), Ok(made));
    }

    #[test]
    fn told_apart() {
        let header = "YUV4MPEG2 W12 H8 C420p10";
        let ffmpeg = "ffmpeg -i 'reel 7.mov' -pix_fmt yuv420p10le -strict -1 'reel 7-10bit.y4m'";
        for (bytes, want) in [
            (vec![], "it is empty"),
            (vec![0; 5000], ffmpeg),
            (b"YUV4MPEG2 W12 H8 C420p10".to_vec(), "has no end"),
            ([&b"YUV4MPEG2 "[..], &[b'X'; 5000]].concat(), "has no end"),
            (bytes("P5 12 8 1023", 144), "not a y4m clip"),
            (bytes("YUV4MPEG21 W12 H8 C420p10", 144), "not a y4m clip"),
            (bytes("YUV4MPEG2 W12 H8 C420p10\r", 144), "ends with CR LF"),
            (bytes("YUV4MPEG2\r", 144), "ends with CR LF"),
            (
                bytes("YUV4MPEG2 W12 H8 W16 C420p10", 144),
                "the tag W twice",
            ),
            (
                bytes("YUV4MPEG2 W12 H8 C420p10 C420p10", 144),
                "the tag C twice",
            ),
            (bytes("YUV4MPEG2 W12 H8", 144), "8-bit"),
            (bytes("YUV4MPEG2 W12 H8", 144), ffmpeg),
            (bytes("YUV4MPEG2 W12 H8 C420jpeg", 144), "C420jpeg"),
            (bytes("YUV4MPEG2 W12 H8 C422p10", 144), ffmpeg),
            (bytes("YUV4MPEG2 W12 C420p10", 144), "no height"),
            (bytes("YUV4MPEG2 W12 H-8 C420p10", 144), "W12 H-8"),
            (bytes("YUV4MPEG2 W12 H99999999999 C420p10", 144), "no size"),
            (format!("{header}\n").into_bytes(), "no picture"),
            (
                format!("{header}\nFRAM\n").into_bytes(),
                "frame 0 does not begin",
            ),
            (
                format!("{header}\nFRAME\r\n").into_bytes(),
                "frame 0 does not begin",
            ),
            (
                bytes(header, 0),
                "cut off: it ends in frame 0, row 0 of plane Y",
            ),
            (
                bytes(header, 95),
                "cut off: it ends in frame 0, row 7 of plane Y",
            ),
            (
                bytes(header, 143),
                "cut off: it ends in frame 0, row 3 of plane V",
            ),
        ] {
            let Err(Failure::File(said)) = first(&bytes) else {
                panic!("it was taken: {want}")
            };
            assert!(said.contains(want), "{said}");
            assert_eq!(said.lines().count(), 1);
        }
        let filter = "ffmpeg -i 'reel 7.mov' -vf 'pad=ceil(iw/4)*4:ceil(ih/4)*4' -pix_fmt";
        for (sides, has_remedy) in [("W14 H8", true), ("W12 H0", false), ("W12 H8132", false)] {
            let refused = first(&bytes(&format!("YUV4MPEG2 {sides} C420p10"), 144));
            let Err(Failure::Refused {
                refusal, remedy, ..
            }) = refused
            else {
                panic!("it was taken")
            };
            assert_eq!(refusal, Refusal::Picture);
            assert_eq!(
                remedy.is_some_and(|remedy| remedy.contains(filter)),
                has_remedy
            );
        }
        let one = bytes(header, 144);
        let Err(Failure::File(said)) = clip(&one).unwrap().frame(3) else {
            panic!("there is one frame")
        };
        assert_eq!(said, "there is no frame 3: the clip has frames 0 to 0");
    }
}
