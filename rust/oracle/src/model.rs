//! Every call as document 01 tells it, refusals included, with document 02's flags in slices, reports of clipping and laws. Written from their
//! sentences, which are quoted, and not from the Rust: samples and whole numbers, one unit or one sample at a time.

pub mod camera;
pub mod trace;

pub type Mv = [i16; 2];

/// A block of a picture in luma samples; each pair is across, down.
#[derive(Clone, Copy, Debug)]
pub struct Block {
    pub pic: [u32; 2],
    pub place: [u32; 2],
    pub side: [u32; 2],
}

/// The record of four candidates: left, up, up-right, collocated.
#[derive(Clone, Copy, Debug, PartialEq)]
pub struct Candidates {
    pub mv: [Mv; 4],
    pub refi: [i8; 4],
}

/// Order counts: of the picture, of reference 0, of reference 1 and the first that it lists.
#[derive(Clone, Copy, Debug)]
pub struct Pocs {
    pub poc: u32,
    pub poc0: u32,
    pub poc1: u32,
    pub list_poc0: u32,
}

/// "Picture sides W and H are multiples of 4 from 4 to 8128."
pub fn is_picture_refused(pic: [u32; 2]) -> bool {
    !pic.iter().all(|n| n % 4 == 0 && (4..=8128).contains(n))
}

impl Block {
    fn is_picture_refused(&self) -> bool {
        is_picture_refused(self.pic)
    }

    /// "A block has sides 4, 8, 16, 32 or 64, chosen separately; its place is a multiple of 4; it
    /// lies wholly inside the picture."
    pub fn is_block_refused(&self) -> bool {
        !(0..2).all(|d| {
            let [pic, place, side] = [self.pic[d], self.place[d], self.side[d]].map(u64::from);
            [4, 8, 16, 32, 64].contains(&side) && place % 4 == 0 && place + side <= pic
        })
    }

    /// "one for each 4 by 4 unit"
    pub fn units(&self) -> usize {
        self.pic.iter().map(|n| *n as usize / 4).product()
    }

    /// Where the maps have the unit that holds a sample, "row by row over the whole picture"; none
    /// outside the picture.
    pub fn unit_at(&self, x: i64, y: i64) -> Option<usize> {
        let [pic_w, pic_h] = self.pic.map(i64::from);
        let is_inside = (0..pic_w).contains(&x) && (0..pic_h).contains(&y);
        is_inside.then(|| (y / 4 * (pic_w / 4) + x / 4) as usize)
    }

    /// x, y of the first sample, and of the first one right of and below the block.
    pub fn edges(&self) -> [i64; 4] {
        let [[x, y], [w, h]] = [self.place, self.side].map(|pair| pair.map(i64::from));
        [x, y, x + w, y + h]
    }
}

/// "Checks run in rising number."
fn first_refusal(checks: &[(u32, bool)]) -> u32 {
    checks
        .iter()
        .find(|(_, refuses)| *refuses)
        .map_or(0, |(number, _)| *number)
}

/// "bit 31 is coded, bit 15 is intra"
fn is_coded(word: u32) -> bool {
    word & 1 << 31 != 0
}

fn is_intra(word: u32) -> bool {
    word & 1 << 15 != 0
}

/// "The slice number is in bits 0 to 6 of the unit word."
pub fn slice_number(word: u32) -> u32 {
    word % 128
}

/// 'Flags': the number returned and the flags. "Document 01 counts the picture as one slice."
pub fn flags(b: &Block, words: &[u32]) -> (u32, u16) {
    match flags_refusal(b, words) {
        0 => (0, flags_among(b, words, |_| true)),
        code => (code, 0),
    }
}

/// W5, "a mode which takes the block's slice number, 0 to 127, and treats a unit of another slice as unavailable for
/// every flag, up and right-up too": the number returned and the flags.
pub fn slice_flags(b: &Block, slice_num: u32, words: &[u32]) -> (u32, u16) {
    match flags_refusal(b, words) {
        // "It refuses 13 for a slice number above 127, after 4."
        0 if slice_num > 127 => (13, 0),
        0 => {
            let is_available = |word| slice_number(word) == slice_num;
            (0, flags_among(b, words, is_available))
        }
        code => (code, 0),
    }
}

fn flags_refusal(b: &Block, words: &[u32]) -> u32 {
    first_refusal(&[
        (1, b.is_picture_refused()),
        (2, b.is_block_refused()),
        (4, words.len() < b.units()),
    ])
}

/// The flags of a block, by those of its neighbours whose words make them available.
fn flags_among(b: &Block, words: &[u32], is_available: impl Fn(u32) -> bool) -> u16 {
    let [x, y, right, below] = b.edges();
    // "A unit outside the picture sets no flag."
    let available = |x, y| {
        let word = b.unit_at(x, y).map(|unit| words[unit]);
        word.filter(|word| is_available(*word))
    };
    let not_intra = |x, y| available(x, y).map_or(false, |word| !is_intra(word));
    let inter = |x, y| available(x, y).map_or(false, |word| !is_intra(word) && is_coded(word));
    let (le, ri) = (inter(x - 1, y), inter(right, y));
    let set = [
        (0, not_intra(x, y - 1)), // "Up and right-up (above the block's last unit) need not-intra only."
        (1, le),
        (3, ri),
        (5, inter(x - 1, y - 1)),
        (6, inter(right, y - 1)),
        (7, le && inter(x - 1, below)), // "lower-left also needs left"
        (8, ri && inter(right, below)), // "lower-right also needs right"
        (9, not_intra(right - 1, y - 1)),
    ];
    set.iter()
        .map(|(bit, is_set)| u16::from(*is_set) << bit)
        .sum()
}

/// "a motion map, four signed 16-bit numbers a unit (list 0 across, down, list 1 across, down)"
fn vector(map: &[i16], unit: usize, list: usize) -> Mv {
    let at = 4 * unit + 2 * list;
    [map[at], map[at + 1]]
}

/// A collocated map that is lent; `is_present` says whether it counts.
#[derive(Clone, Copy)]
pub struct Collocated<'a> {
    pub is_present: bool,
    pub map: &'a [i16],
}

impl Collocated<'_> {
    /// "the collocated one only where present"
    fn is_short(&self, b: &Block) -> bool {
        self.is_present && self.map.len() < 4 * b.units()
    }

    /// "list 0 of the collocated map at the block's first unit"
    fn vector(&self, b: &Block) -> Option<Mv> {
        let [x, y, ..] = b.edges();
        self.is_present
            .then(|| vector(self.map, b.unit_at(x, y).unwrap(), 0))
    }
}

/// 'Candidates': the number returned and the record.
pub fn candidates(
    b: &Block,
    lidx: u32,
    avail: u16,
    map: &[i16],
    col: Collocated,
    old: Candidates,
) -> (u32, Candidates) {
    let [x, y, right, _] = b.edges();
    let [up, left, up_right] = [0, 1, 6].map(|bit| avail >> bit & 1 == 1);
    // "left at x = 0, up at y = 0, or up-right at y = 0 or x + w = W; other bits are ignored"
    let is_last = right == i64::from(b.pic[0]);
    let names_outside = left && x == 0 || up && y == 0 || up_right && (y == 0 || is_last);
    let code = first_refusal(&[
        (1, b.is_picture_refused()),
        (2, b.is_block_refused()),
        (3, lidx != 0 && lidx != 1), // "a list number is neither 0 nor 1"
        (4, map.len() < 4 * b.units() || col.is_short(b)),
        (7, names_outside),
    ]);
    if code != 0 {
        return (code, old);
    }
    // "from the given list of the motion map, else (1,1)"
    let neighbour = |flag, x, y| match flag {
        true => vector(map, b.unit_at(x, y).unwrap(), lidx as usize),
        false => [1, 1],
    };
    let mv = [
        neighbour(left, x - 1, y),
        neighbour(up, x, y - 1),
        neighbour(up_right, right, y - 1),
        col.vector(b).unwrap_or(old.mv[3]), // "the fourth keeps its old value"
    ];
    // "All four reference numbers become 0."
    (0, Candidates { mv, refi: [0; 4] })
}

/// 'Direct vectors': the number returned and the two vectors.
pub fn direct(b: &Block, pocs: Pocs, col: Collocated) -> (u32, [Mv; 2]) {
    let counts = [pocs.poc, pocs.poc0, pocs.poc1, pocs.list_poc0];
    let code = first_refusal(&[
        (1, b.is_picture_refused()),
        (2, b.is_block_refused()),
        (4, col.is_short(b)),
        (5, counts.iter().any(|count| *count > 32767)),
    ]);
    let [count, count0, count1, first_listed] = counts.map(i128::from);
    let co = count1 - first_listed;
    if code != 0 || co == 0 {
        return (code, [[0; 2]; 2]);
    }
    // "collocated vector from list 0, zero without a map"
    let v = col.vector(b).unwrap_or([0, 0]).map(i128::from);
    // "truncated toward zero, and only the low sixteen bits are kept, as a signed number"
    let kept = |quotient: i128| ((quotient + 32768).rem_euclid(65536) - 32768) as i16;
    let first = v.map(|v| kept((count - count0) * v / co));
    let second = v.map(|v| kept(-(count1 - count) * v / co));
    (0, [first, second])
}

/// A call on one plane; each pair is across, down.
#[derive(Clone, Copy, Debug)]
pub struct OnePlane {
    pub chroma: bool,
    pub pic: [u32; 2],
    pub ori_mv: Mv,
    pub gmv: Mv,
    pub side: [u32; 2],
}

impl OnePlane {
    /// Any call on a plane, for the plane's sizes.
    pub fn over(chroma: bool, pic: [u32; 2]) -> Self {
        OnePlane {
            chroma,
            pic,
            ori_mv: [0; 2],
            gmv: [0; 2],
            side: [0; 2],
        }
    }

    /// "Luma pad 80, chroma pad 40. The left origin is the pad rounded up to a multiple of 16: 80
    /// and 48."
    pub fn origin(&self) -> [i64; 2] {
        if self.chroma {
            [48, 40]
        } else {
            [80, 80]
        }
    }

    /// "chroma planes have half of each"
    pub fn size(&self) -> [i64; 2] {
        let part = 1 + i64::from(self.chroma);
        self.pic.map(|n| i64::from(n) / part)
    }

    /// "Stride is left origin + width + pad, rounded up to 16."
    pub fn stride(&self) -> i64 {
        let ([left, pad], [width, _]) = (self.origin(), self.size());
        (left + width + pad + 15) / 16 * 16
    }

    /// "a plane, stride × rows", "Rows: pad + height + pad."
    pub fn plane_len(&self) -> usize {
        let ([_, pad], [_, height]) = (self.origin(), self.size());
        (self.stride() * (pad + height + pad)) as usize
    }

    /// "a one-plane block, its width × height"
    pub fn block_len(&self) -> usize {
        self.side.iter().map(|n| *n as usize).product()
    }

    /// "One-plane prediction takes these sides for luma and half of them for chroma"
    pub fn is_block_refused(&self) -> bool {
        let part = 1 + u32::from(self.chroma);
        let allowed = [4, 8, 16, 32, 64].map(|side| side / part);
        !self.side.iter().all(|side| allowed.contains(side))
    }

    /// Where the plane holds the sample of column i and row j of the picture.
    pub fn index(&self, i: i64, j: i64) -> i64 {
        let [left, pad] = self.origin();
        (pad + j) * self.stride() + left + i
    }

    fn held(&self, plane: &[u16], i: i64, j: i64) -> i64 {
        i64::from(plane[self.index(i, j) as usize])
    }

    /// Fractions of a sample that a position counts: "its low 2 bits, and the position >> 2; chroma 3"
    pub fn parts(&self) -> i64 {
        if self.chroma {
            8
        } else {
            4
        }
    }

    fn position(&self) -> [i64; 2] {
        self.gmv.map(i64::from)
    }

    pub fn phase(&self) -> [i64; 2] {
        self.position().map(|v| v.rem_euclid(self.parts()))
    }

    fn place(&self) -> [i64; 2] {
        self.position().map(|v| v.div_euclid(self.parts()))
    }

    /// Directions that are filtered: "the path comes from the original vector's low 2 bits (chroma 3)"
    pub fn path(&self) -> [bool; 2] {
        self.ori_mv.map(|v| i64::from(v) % self.parts() != 0)
    }

    /// Samples before the place, and after it, that a filter takes.
    pub fn reach(&self) -> [i64; 2] {
        if self.chroma {
            [1, 2]
        } else {
            [2, 3]
        }
    }

    /// "Paths start at the place less 2 (chroma 1) in a filtered direction; `PlaneSlice::clamp` then
    /// holds the start between minus the origin and the plane's size."
    fn start(&self, path: [bool; 2]) -> [i64; 2] {
        let (place, origin, size) = (self.place(), self.origin(), self.size());
        [0, 1].map(|d| {
            let before = if path[d] { self.reach()[0] } else { 0 };
            (place[d] - before).max(-origin[d]).min(size[d])
        })
    }

    /// A row of the fixed filters. The later phases are the earlier ones backward.
    fn taps(&self, phase: i64) -> Vec<i64> {
        let k = phase.min(self.parts() - phase);
        let mut taps = if self.chroma {
            vec![-2 * k, 64 - 6 * k, 10 * k, -2 * k]
        } else {
            vec![k, -5 * k, 64 - 12 * k, 20 * k, -5 * k, k]
        };
        if 2 * phase > self.parts() {
            taps.reverse();
        }
        taps
    }

    /// "rows first, sum >> 2, then columns, (sum + 512) >> 10", over any samples.
    fn two_stages(&self, phase: [i64; 2], at: impl Fn(i64, i64) -> i64) -> Vec<u16> {
        let [across, down] = phase.map(|phase| self.taps(phase));
        let [w, h] = self.side.map(|n| n as usize);
        let rows: Vec<Vec<i64>> = (0..h + down.len() - 1)
            .map(|r| {
                let first = |c| sum(&across, |k| at((c + k) as i64, r as i64)).div_euclid(4);
                (0..w).map(first).collect()
            })
            .collect();
        let second =
            |(c, r): (usize, usize)| (sum(&down, |k| rows[r + k][c]) + 512).div_euclid(1024);
        places(w, h).map(|place| hold(second(place))).collect()
    }

    /// The block that the path gives.
    fn block(&self, plane: &[u16]) -> Vec<u16> {
        let [x, y] = self.start(self.path());
        let at = |i, j| self.held(plane, x + i, y + j);
        let [across, down] = self.phase().map(|phase| self.taps(phase));
        let [w, h] = self.side.map(|n| n as usize);
        // "One direction: (sum + 32) >> 6."
        let one = |sum: i64| hold((sum + 32).div_euclid(64));
        let places = places(w, h);
        match self.path() {
            [false, false] => places.map(|(c, r)| at(c as i64, r as i64) as u16).collect(),
            [true, false] => places
                .map(|(c, r)| one(sum(&across, |k| at((c + k) as i64, r as i64))))
                .collect(),
            [false, true] => places
                .map(|(c, r)| one(sum(&down, |k| at(c as i64, (r + k) as i64))))
                .collect(),
            [true, true] => self.two_stages(self.phase(), at),
        }
    }

    /// "Samples examined for 6: from the clamped start of the two-direction path, w + 5 by h + 5
    /// (chroma + 3)."
    pub fn window(&self) -> ([i64; 2], [usize; 2]) {
        let more = if self.chroma { 3 } else { 5 };
        (self.start([true; 2]), self.side.map(|n| n as usize + more))
    }

    fn is_sample_refused(&self, plane: &[u16]) -> bool {
        let ([x, y], [w, h]) = self.window();
        places(w, h).any(|(c, r)| self.held(plane, x + c as i64, y + r as i64) > 1023)
    }

    /// The definition that demand 3 compares: "The general filter always runs both stages", over the
    /// picture prolonged without end.
    pub fn general(&self, plane: &[u16]) -> Vec<u16> {
        self.general_at(self.position(), plane)
    }

    /// The same at any position, also one that sixteen bits do not hold.
    fn general_at(&self, position: [i64; 2], plane: &[u16]) -> Vec<u16> {
        let [x, y] = position.map(|v| v.div_euclid(self.parts()));
        let phase = position.map(|v| v.rem_euclid(self.parts()));
        let [pw, ph] = self.size();
        let before = self.reach()[0];
        self.two_stages(phase, |i, j| {
            let i = (x + i - before).max(0).min(pw - 1);
            let j = (y + j - before).max(0).min(ph - 1);
            self.held(plane, i, j)
        })
    }
}

/// Columns and rows of a block, row after row.
fn places(w: usize, h: usize) -> impl Iterator<Item = (usize, usize)> {
    (0..h).flat_map(move |r| (0..w).map(move |c| (c, r)))
}

fn sum(taps: &[i64], sample: impl Fn(usize) -> i64) -> i64 {
    let products = taps.iter().enumerate().map(|(k, tap)| tap * sample(k));
    products.sum()
}

/// "Filtered results are held to 0..1023."
fn hold(value: i64) -> u16 {
    value.max(0).min(1023) as u16
}

/// 'One plane': the number returned; `pred` becomes what it holds afterwards.
pub fn one_plane(c: &OnePlane, plane: &[u16], pred: &mut [u16]) -> u32 {
    let code = first_refusal(&[(1, is_picture_refused(c.pic)), (2, c.is_block_refused())]);
    if code != 0 {
        return code;
    }
    if plane.len() < c.plane_len() || pred.len() < c.block_len() {
        return 4;
    }
    if c.is_sample_refused(plane) {
        return 6;
    }
    pred[..c.block_len()].copy_from_slice(&c.block(plane));
    0
}

/// 'Planes': the number returned; `plane` becomes what it holds afterwards.
pub fn pad(chroma: bool, pic: [u32; 2], plane: &mut [u16]) -> u32 {
    if is_picture_refused(pic) {
        return 1;
    }
    let c = OnePlane::over(chroma, pic);
    if plane.len() < c.plane_len() {
        return 4;
    }
    let stride = c.stride() as usize;
    let [left, above] = c.origin().map(|n| n as usize);
    let [right, below] = [0, 1].map(|d| (c.origin()[d] + c.size()[d]) as usize);
    let rows = &mut plane[..c.plane_len()];
    // "6 (picture samples)"
    let mut picture = rows.chunks(stride).skip(above).take(below - above);
    if picture.any(|row| row[left..right].iter().any(|sample| *sample > 1023)) {
        return 6;
    }
    // "fills left, then all columns right of the picture to the stride"
    for row in rows.chunks_mut(stride).skip(above).take(below - above) {
        let [first, last] = [row[left], row[right - 1]];
        row[..left].fill(first);
        row[right..].fill(last);
    }
    // "then copies the first and last full rows outward"
    for r in 0..above {
        rows.copy_within(above * stride..(above + 1) * stride, r * stride);
    }
    for r in below..rows.len() / stride {
        rows.copy_within((below - 1) * stride..below * stride, r * stride);
    }
    0
}

/// Document 02, W2: "for each component whether it was moved to the low side, the high side or not at
/// all". The side is the limit's: a component that is too low rises to the low one.
pub type Moved = [u8; 2];

pub const NOT_MOVED: u8 = 0;
pub const LOW: u8 = 1;
pub const HIGH: u8 = 2;

/// "a list not in use, or a refused clipping or block call, reports nothing moved"
pub const NOTHING_MOVED: Moved = [NOT_MOVED; 2];

/// 'Clipping': the number returned, the vector and, "beside the vector", the reports.
pub fn clip(b: &Block, mv: Mv) -> (u32, Mv, Moved) {
    let code = first_refusal(&[(1, b.is_picture_refused()), (2, b.is_block_refused())]);
    if code != 0 {
        return (code, [0, 0], NOTHING_MOVED);
    }
    let [(mvx, moved_x), (mvy, moved_y)] = b.clipped(mv);
    (0, [mvx as i16, mvy as i16], [moved_x, moved_y])
}

/// 'Clipping' in one direction, with the exact sums, and its report: "if 4x + mvx < -256, the vector
/// becomes -256 - 4x; if 4x + mvx + 4w - 4 > 4(W - 1 + 64), it becomes that limit - 4x - 4w + 4".
pub fn clipped(pic: i64, x: i64, w: i64, mvx: i64) -> (i64, u8) {
    let limit = 4 * (pic - 1 + 64);
    if 4 * x + mvx < -256 {
        (-256 - 4 * x, LOW)
    } else if 4 * x + mvx + 4 * w - 4 > limit {
        (limit - 4 * x - 4 * w + 4, HIGH)
    } else {
        (mvx, NOT_MOVED)
    }
}

impl Block {
    /// Picture side, place, side and vector in one direction.
    fn component(&self, mv: Mv, d: usize) -> [i64; 4] {
        let [pic, place, side] = [self.pic[d], self.place[d], self.side[d]].map(i64::from);
        [pic, place, side, i64::from(mv[d])]
    }

    /// The clipped component and its report, across and down.
    fn clipped(&self, mv: Mv) -> [(i64, u8); 2] {
        [0, 1].map(|d| {
            let [pic, x, w, mvx] = self.component(mv, d);
            clipped(pic, x, w, mvx)
        })
    }

    /// "4 × x + mvx + 4 × w at most 32,767, and likewise in y"
    pub fn in_domain(&self, mv: Mv) -> bool {
        let sums = [0, 1].map(|d| {
            let [_, x, w, mvx] = self.component(mv, d);
            4 * x + mvx + 4 * w
        });
        sums.iter().all(|sum| *sum <= 32767)
    }

    /// "A list's clipped place is 4x + mvx across and 4y + mvy down, with the clipped vector."
    pub fn clipped_place(&self, mv: Mv) -> Mv {
        let clipped = self.clipped(mv);
        [0, 1].map(|d| (4 * i64::from(self.place[d]) + clipped[d].0) as i16)
    }
}

/// A list of a block: whether it is in use, its vector, and its picture's count and planes.
#[derive(Clone, Copy)]
pub struct List<'a> {
    pub used: bool,
    pub mv: Mv,
    pub poc: u32,
    pub planes: [&'a [u16]; 3],
}

impl List<'_> {
    /// The prediction from one of its planes: path by the vector, phase and place by the clipped one.
    pub fn one_plane(&self, b: &Block, plane: usize) -> OnePlane {
        let chroma = plane > 0;
        let part = 1 + u32::from(chroma);
        OnePlane {
            chroma,
            pic: b.pic,
            ori_mv: self.mv,
            gmv: b.clipped_place(self.mv),
            side: b.side.map(|n| n / part),
        }
    }

    fn is_any_plane(&self, b: &Block, has: impl Fn(OnePlane, &[u16]) -> bool) -> bool {
        (0..3).any(|k| has(self.one_plane(b, k), self.planes[k]))
    }

    fn block(&self, b: &Block, plane: usize) -> Vec<u16> {
        self.one_plane(b, plane).block(self.planes[plane])
    }
}

/// "two lent blocks of at least 6144 samples, both needed even when one list is in use"
pub const PRED_LEN: usize = 6144;

/// "laid out by `tbl_cu_dim_offset`": "0, 4096, 5120"
pub const OFFSETS: [usize; 3] = [0, 4096, 5120];

/// "(a + b + 1) >> 1"
fn average(a: &[u16], b: &[u16]) -> Vec<u16> {
    let pairs = a.iter().zip(b);
    pairs.map(|(a, b)| (a + b + 1) / 2).collect()
}

/// "If both lists are in use with equal counts and equal clipped vectors, list 0 alone stands."
pub fn is_bi(b: &Block, lists: &[List; 2]) -> bool {
    let [l, m] = lists;
    let is_same = l.poc == m.poc && b.clipped_place(l.mv) == b.clipped_place(m.mv);
    l.used && m.used && !is_same
}

/// What block prediction returns: its number, and the reports of list 0 and list 1.
#[derive(Clone, Copy, Debug, PartialEq)]
pub struct Predicted {
    pub code: u32,
    pub moved: [Moved; 2],
}

/// 'Block': the number and the reports; both blocks become what they hold afterwards.
pub fn block(b: &Block, lists: &[List; 2], pred0: &mut [u16], pred1: &mut [u16]) -> Predicted {
    let mut moved = [NOTHING_MOVED; 2];
    let code = predict(b, lists, pred0, pred1);
    // "Block prediction and replay pass these reports up", also where list 0 alone stands: both are in use
    for k in (0..2).filter(|k| code == 0 && lists[*k].used) {
        moved[k] = b.clipped(lists[k].mv).map(|(_, report)| report);
    }
    Predicted { code, moved }
}

/// Without the reports.
fn predict(b: &Block, lists: &[List; 2], pred0: &mut [u16], pred1: &mut [u16]) -> u32 {
    let in_use: Vec<&List> = lists.iter().filter(|list| list.used).collect();
    let code = first_refusal(&[
        (1, b.is_picture_refused()),
        (2, b.is_block_refused()),
        (3, in_use.is_empty()), // "no list is in use"
    ]);
    if code != 0 {
        return code;
    }
    // "A list not in use may lend empty buffers, unread."
    let is_short = |list: &&List| list.is_any_plane(b, |c, plane| plane.len() < c.plane_len());
    let code = first_refusal(&[
        (
            4,
            in_use.iter().any(is_short) || pred0.len() < PRED_LEN || pred1.len() < PRED_LEN,
        ),
        (5, in_use.iter().any(|list| list.poc > 32767)), // "an order count in use exceeds 32,767"
    ]);
    if code != 0 {
        return code;
    }
    // "with both lists' windows checked first"
    let has_high = |list: &&List| list.is_any_plane(b, |c, plane| c.is_sample_refused(plane));
    if in_use.iter().any(has_high) {
        return 6;
    }
    for plane in 0..3 {
        let at = OFFSETS[plane];
        // "List 0 goes to the first; the second prediction goes to whichever of the two blocks is
        // still empty."
        let mut first = in_use[0].block(b, plane);
        let part = at..at + first.len();
        if is_bi(b, lists) {
            // "the first block gets (a + b + 1) >> 1 and the second block keeps list 1's"
            let second = lists[1].block(b, plane);
            first = average(&first, &second);
            pred1[part.clone()].copy_from_slice(&second);
        }
        pred0[part].copy_from_slice(&first);
    }
    0
}

/// "With both lists in use the sample is (a + b + 1) >> 1, also where counts and vectors are equal.":
/// luma, cb, cr of what `of` gives for a list and a plane.
fn of_lists(lists: &[List; 2], of: impl Fn(&List, usize) -> Vec<u16>) -> [Vec<u16>; 3] {
    [0, 1, 2].map(|plane| {
        let in_use = lists.iter().filter(|list| list.used);
        let mut blocks = in_use.map(|list| of(list, plane));
        let first = blocks.next().expect("a list is in use");
        match blocks.next() {
            Some(second) => average(&first, &second),
            None => first,
        }
    })
}

/// The predicted samples that demand 3 compares.
pub fn general_block(b: &Block, lists: &[List; 2]) -> [Vec<u16>; 3] {
    of_lists(lists, |list, plane| {
        list.one_plane(b, plane).general(list.planes[plane])
    })
}

/// Document 02, W6: the predicted samples at "the exact unclipped place", 4x + mvx and 4y + mvy with
/// the vector as given.
pub fn exact_block(b: &Block, lists: &[List; 2]) -> [Vec<u16>; 3] {
    of_lists(lists, |list, plane| {
        let place = [0, 1].map(|d| {
            let [_, x, _, mvx] = b.component(list.mv, d);
            4 * x + mvx
        });
        let one_plane = list.one_plane(b, plane);
        one_plane.general_at(place, list.planes[plane])
    })
}

impl Block {
    /// By how many quarter samples clipping moves a vector in one direction.
    pub fn moved_by(&self, mv: Mv, d: usize) -> u64 {
        let (clipped, _) = self.clipped(mv)[d];
        clipped.abs_diff(mv[d].into())
    }

    /// "for sides of at most 32 clipping changes no sample .., and .. for chroma it never does": where it
    /// changes none of a plane of the block. Along a side of 64 it can change luma, but only where it
    /// moves the vector by one to three quarter samples.
    pub fn is_clipping_hidden(&self, lists: &[List; 2], plane: usize) -> bool {
        let can_show = |list: &List, d: usize| {
            plane == 0 && self.side[d] == 64 && (1..=3).contains(&self.moved_by(list.mv, d))
        };
        let mut in_use = lists.iter().filter(|list| list.used);
        !in_use.any(|list| can_show(list, 0) || can_show(list, 1))
    }

    /// "its four quarters (sides 8 and up ..)": upper left, upper right, lower left, lower right.
    pub fn quarters(&self) -> Option<[Block; 4]> {
        let side = self.side.map(|n| n / 2);
        let quarter = |k: u32| Block {
            pic: self.pic,
            place: [
                self.place[0] + k % 2 * side[0],
                self.place[1] + k / 2 * side[1],
            ],
            side,
        };
        let is_split = self.side.iter().all(|side| *side >= 8);
        is_split.then(|| [0, 1, 2, 3].map(quarter))
    }
}
