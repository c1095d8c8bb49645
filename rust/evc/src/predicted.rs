//! A predicted picture: held to what it should be, told of, and written.

use crate::call::Call;
use crate::coded::{self, Answers, Coded, Kind};
use crate::colour;
use crate::folder::Folder;
use crate::material::Material;
use crate::moved;
use crate::png::Image;
use crate::report::{Console, Failure, Result};
use crate::search::{Search, Vectors};
use crate::y4m::PLANES;
use evc_inter::{evc_camera_motion, Flip, Picture};

const REFERENCES: [&str; 2] = ["reference0", "reference1"];

/// A predicted picture, and all that is told of it.
pub struct Predicted {
    pub material: Material,
    pub blocks: Vec<Coded>,
    pub straight: Answers,
    pub trace: Vec<u8>,
    flip: Flip,
    /// The same, by the references and blocks of the flipped reel.
    flipped: Answers,
}

impl Predicted {
    pub fn new(material: Material, flip: Flip) -> Result<Predicted> {
        let references = &material.references;
        let vectors = material
            .known
            .as_deref()
            .map_or(Vectors::Searched, Vectors::Known);
        let search = Search {
            references,
            picture: &material.picture,
            kinds: &Kind::ALL,
            vectors,
        };
        let blocks = search.blocks("motion search")?;
        let straight = coded::predicted(&references.pictures, references.poc, &blocks)?;
        let trace = coded::trace(references, &blocks)?;
        let turned: Vec<_> = blocks.iter().map(|coded| coded.flipped(flip)).collect();
        let flipped = coded::predicted(&references.flipped(flip)?, references.poc, &turned)?;
        Ok(Predicted {
            material,
            blocks,
            straight,
            trace,
            flip,
            flipped,
        })
    }

    /// Every prediction of it.
    pub fn calls(&self) -> Vec<Call> {
        let poc = self.material.references.poc;
        self.blocks.iter().map(|coded| coded.call(poc)).collect()
    }

    /// Whether the flipped reel gives the same picture, sample for sample, once it is turned back, and
    /// runs out of frame where the straight one does.
    pub fn hold_to_flip(&self, console: &mut Console) -> bool {
        let (flip, back) = (self.flip, self.flipped.picture.flipped(self.flip));
        let reports = self.straight.reports.iter().zip(&self.flipped.reports);
        let mut of_blocks = self.blocks.iter().zip(reports);
        let difference = difference(&back, &self.straight.picture).or_else(|| {
            of_blocks.find_map(|(coded, (report, flipped))| {
                let back = flipped.map(|moved| moved.flipped(flip));
                let what = moved::difference(back, *report)?;
                Some(format!("{coded}: {what}"))
            })
        });
        console.say(match &difference {
            None => format!("flipped {flip}, predicted and turned back: equal sample for sample"),
            Some(what) => format!("flipped {flip}, predicted and turned back: NOT equal: {what}"),
        });
        difference.is_none()
    }

    /// What a describer is told of the picture.
    pub fn said_camera(&self) -> Result<String> {
        let (w, h) = self.material.references.sides();
        let (map_mv, map_scu) = coded::maps((w, h), &self.blocks);
        let camera = evc_camera_motion(w, h, &map_mv, &map_scu).map_err(Failure::at("camera"))?;
        Ok(format!("{camera:#}"))
    }

    pub fn psnr(&self) -> [Option<f64>; 3] {
        [0, 1, 2].map(|c| colour::psnr(&self.straight.picture, &self.material.picture, c))
    }

    fn image(&self, picture: &Picture) -> Image {
        colour::image(picture, self.material.header.is_full_range())
    }

    /// Writes the pictures, and what camera and replay take.
    pub fn write(&self, folder: &mut Folder) -> Result<()> {
        let Material {
            header, picture, ..
        } = &self.material;
        let predicted = &self.straight.picture;
        let straight = self.image(predicted);
        folder.y4m("predicted", header, predicted)?;
        folder.png("predicted", &straight)?;
        folder.y4m("true", header, picture)?;
        folder.png("true", &self.image(picture))?;
        folder.y4m(
            "difference",
            header,
            &colour::difference(predicted, picture),
        )?;
        folder.png("difference", &colour::difference_image(predicted, picture))?;
        folder.png("blocks", &colour::outlined(straight.clone(), &self.blocks))?;
        let back = self.image(&self.flipped.picture.flipped(self.flip));
        folder.png("side-by-side", &colour::side_by_side(&[straight, back]))?;
        let (map_mv, map_scu) = coded::maps(picture.sides(), &self.blocks);
        folder.raw("predicted.motion", map_mv.into_iter().map(i16::to_le_bytes))?;
        folder.raw("predicted.units", map_scu.into_iter().map(u32::to_le_bytes))?;
        let col_mv = self.material.references.col_mv.iter().copied();
        folder.raw("reference1.motion", col_mv.map(i16::to_le_bytes))
    }

    /// Writes what a trace is replayed from.
    pub fn write_references(&self, folder: &mut Folder) -> Result<()> {
        for (name, picture) in REFERENCES.iter().zip(&self.material.references.pictures) {
            folder.y4m(name, &self.material.header, picture.picture())?;
        }
        Ok(())
    }

    /// Writes the reel as it was scanned with the wrong side to the lens, beside the straight print.
    pub fn write_flipped(&self, folder: &mut Folder) -> Result<()> {
        let header = &self.material.header.flipped(self.flip);
        folder.y4m("flipped", header, &self.flipped.picture)?;
        let images = [&self.straight, &self.flipped].map(|answers| self.image(&answers.picture));
        folder.png("flipped", &colour::side_by_side(&images))?;
        for (name, picture) in REFERENCES.iter().zip(&self.material.references.pictures) {
            let flipped = picture.picture().flipped(self.flip);
            folder.y4m(&format!("flipped-{name}"), header, &flipped)?;
        }
        Ok(())
    }
}

/// The first sample in which two pictures differ, if there is one.
pub fn difference(picture: &Picture, other: &Picture) -> Option<String> {
    let planes = picture.planes.iter().zip(&other.planes).zip(PLANES);
    for ((plane, other), name) in planes {
        for (y, (row, other)) in plane.rows().zip(other.rows()).enumerate() {
            if let Some(x) = (0..row.len()).find(|x| row[*x] != other[*x]) {
                let (a, b) = (row[x], other[x]);
                return Some(format!("plane {name}, column {x}, row {y}: {a}, not {b}"));
            }
        }
    }
    None
}
