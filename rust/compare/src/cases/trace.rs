//! `evc_trace_write_header` and `evc_trace_write_record`. The Rust has no trace: the model alone is asked.

use super::*;
use crate::guard::{Guarded, PRESSES};
use crate::lent::old_bytes;
use crate::numbers::{one_in, seed, smaller_number, smaller_spare, smaller_vectors, spare, wild};
use oracle::cases::{random_block, record};
use oracle::model::trace::{self, Header, Record, HEADER_LEN, RECORD_LEN};

/// As many bytes as needed, more, or less.
fn random_len(needed: usize, rng: &mut Rng) -> usize {
    match rng.below(8) {
        0 => rng.below(needed),
        1 => needed - 1,
        _ => needed + spare(rng),
    }
}

/// One picture of eight has a side that is any number.
fn any_picture(mut pic: [u32; 2], rng: &mut Rng) -> [u32; 2] {
    if one_in(8, rng) {
        let d = rng.below(2);
        pic[d] = wild(pic[d], rng);
    }
    pic
}

/// Any number of sixteen bits, the ends more often.
pub fn any_number(rng: &mut Rng) -> u16 {
    match rng.below(4) {
        0 => [1, 32767, 32768, 65535][rng.below(4)],
        1 => rng.below(9) as u16,
        _ => rng.below(65536) as u16,
    }
}

#[derive(Clone, Debug)]
pub struct Headers {
    pic: [u32; 2],
    poc: u16,
    list_poc0: u16,
    len: usize,
    seed: u64,
}

impl Case for Headers {
    const NAME: &'static str = "evc_trace_write_header";
    type Lent = Guarded<u8>;

    fn batch(pic: [u32; 2], rng: &mut Rng) -> Vec<Self> {
        let mut one = || Headers {
            pic: any_picture(pic, rng),
            poc: any_number(rng),
            list_poc0: any_number(rng),
            len: random_len(HEADER_LEN, rng),
            seed: seed(rng),
        };
        (0..BATCH).map(|_| one()).collect()
    }

    fn run(&self, calls: &dyn Calls, lent: &mut Guarded<u8>) -> Outcome {
        let Headers { pic, poc, .. } = *self;
        let old = old_bytes(self.len, self.seed);
        let mut want = old.clone();
        let code = trace::write_header(pic, poc, self.list_poc0, &mut want);
        for press in PRESSES {
            let out = lent.lend_mut(press, &old);
            let got = calls.write_header(pic, poc, self.list_poc0, out);
            assert_same("code", got, code)?;
            assert_all_same("header", out, &want)?;
            if code == 0 {
                let header = Header {
                    pic: pic.map(|n| n as u16),
                    poc,
                    list_poc0: self.list_poc0,
                };
                assert_same("header as read", Header::read(out), header)?;
            }
        }
        let in_domain = false;
        Ok(Seen { code, in_domain })
    }

    fn smaller(&self) -> Vec<Self> {
        let mut all = Vec::new();
        let mut with = |change: &dyn Fn(&mut Self)| {
            let mut case = self.clone();
            change(&mut case);
            all.push(case);
        };
        for d in 0..2 {
            for side in smaller_number(self.pic[d]) {
                with(&|case| case.pic[d] = side);
            }
        }
        for count in smaller_number(self.poc.into()) {
            with(&|case| case.poc = count as u16);
        }
        for count in smaller_number(self.list_poc0.into()) {
            with(&|case| case.list_poc0 = count as u16);
        }
        for len in smaller_spare(self.len) {
            with(&|case| case.len = len);
        }
        all
    }
}

/// A record with every field that is due to be zero at zero; its place and sides need not be a block's.
pub fn random_record(pic: [u32; 2], rng: &mut Rng) -> Record {
    let b = random_block(pic, rng);
    let mv = [(); 2].map(|_| [(); 2].map(|_| any_number(rng) as i16));
    let poc = [(); 2].map(|_| any_number(rng));
    record(&b, rng.below(4) as u8, mv, poc)
}

/// One number of a record becomes any.
pub fn disturb(record: &mut Record, rng: &mut Rng) {
    let d = rng.below(2);
    let number = any_number(rng);
    match rng.below(7) {
        0 => record.place[d] = wild(record.place[d].into(), rng) as u16,
        1 => record.side[d] = wild(record.side[d].into(), rng) as u16,
        2 => record.kind = [rng.below(4), 4, 255, rng.below(256)][rng.below(4)] as u8,
        3 => record.mv[0][d] = number as i16,
        4 => record.mv[1][d] = number as i16,
        _ => record.poc[d] = number,
    }
}

/// Simpler records: other kinds, fields toward 0.
pub fn smaller_records(r: &Record) -> Vec<Record> {
    let mut all = Vec::new();
    let mut with = |change: &dyn Fn(&mut Record)| {
        let mut record = *r;
        change(&mut record);
        all.push(record);
    };
    for kind in (0..3).filter(|kind| *kind < r.kind) {
        // the fields that the simpler kind does not have go with it
        with(&|record| {
            let b = record.block([0, 0]);
            *record = oracle::cases::record(&b, kind, record.mv, record.poc);
        });
        with(&|record| record.kind = kind);
    }
    if r.kind > 4 {
        with(&|record| record.kind = 4);
    }
    for d in 0..2 {
        for place in smaller_number(r.place[d].into()) {
            with(&|record| record.place[d] = place as u16);
        }
        for side in smaller_number(r.side[d].into()) {
            with(&|record| record.side[d] = side as u16);
        }
        for mv in smaller_vectors(r.mv[d]) {
            with(&|record| record.mv[d] = mv);
        }
        for count in smaller_number(r.poc[d].into()) {
            with(&|record| record.poc[d] = count as u16);
        }
    }
    all
}

#[derive(Clone, Debug)]
pub struct Records {
    pic: [u32; 2],
    record: Record,
    len: usize,
    seed: u64,
}

impl Case for Records {
    const NAME: &'static str = "evc_trace_write_record";
    type Lent = Guarded<u8>;

    fn batch(pic: [u32; 2], rng: &mut Rng) -> Vec<Self> {
        let mut one = || {
            let mut record = random_record(pic, rng);
            for _ in 0..[0, 0, 1, 2, 3][rng.below(5)] {
                disturb(&mut record, rng);
            }
            Records {
                pic: any_picture(pic, rng),
                record,
                len: random_len(RECORD_LEN, rng),
                seed: seed(rng),
            }
        };
        (0..BATCH).map(|_| one()).collect()
    }

    fn run(&self, calls: &dyn Calls, lent: &mut Guarded<u8>) -> Outcome {
        let old = old_bytes(self.len, self.seed);
        let mut want = old.clone();
        let code = trace::write_record(self.pic, &self.record, &mut want);
        for press in PRESSES {
            let out = lent.lend_mut(press, &old);
            let got = calls.write_record(self.pic, &self.record, out);
            assert_same("code", got, code)?;
            assert_all_same("record", out, &want)?;
            if code == 0 {
                assert_same("record as read", Record::read(out), self.record)?;
            }
        }
        let in_domain = false;
        Ok(Seen { code, in_domain })
    }

    fn smaller(&self) -> Vec<Self> {
        let mut all = Vec::new();
        let mut with = |change: &dyn Fn(&mut Self)| {
            let mut case = self.clone();
            change(&mut case);
            all.push(case);
        };
        for d in 0..2 {
            for side in smaller_number(self.pic[d]) {
                with(&|case| case.pic[d] = side);
            }
        }
        for record in smaller_records(&self.record) {
            with(&|case| case.record = record);
        }
        for len in smaller_spare(self.len) {
            with(&|case| case.len = len);
        }
        all
    }
}
