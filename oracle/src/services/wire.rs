//! Carrier records read and written, against a plain reader and writer by `from_le_bytes` and `to_le_bytes`:
//! every length and column first, then records and bytes of every pattern, there and back.

use super::Service;
use crate::bench;
use crate::ffi::{read_records, write_records, Records};
use crate::numbers::Numbers;
use crate::random::Random;
use crate::rules::RECORDS;
use crate::tally::Tally;
use crate::vectors::{packed, Case, Vectors};
use drifters_gnss::tdcp::Carrier;
use std::hint::black_box;

pub const SERVICE: Service = Service {
    name: "wire",
    count: 200_000,
    compare,
    bench: Some(time),
};

/// The bytes of a record.
pub const RECORD: usize = 59;

/// A carrier whose floats are their bits.
#[derive(Clone, Copy, Debug, Default, PartialEq)]
pub struct Record {
    pub constellation: u8,
    pub svid: u16,
    pub band: u32,
    pub state: i32,
    /// adr, satellite 3, elevation, rate
    pub floats: [u64; 6],
}

impl Record {
    /// Fields and floats of any pattern.
    pub fn random(random: &mut Random) -> Self {
        let bits = random.bits();
        let state = match random.below(4) {
            0 => random.pick(&[0, 1, -1, i32::MIN, i32::MAX]),
            _ => random.bits() as i32,
        };
        Self {
            constellation: bits as u8,
            svid: (bits >> 8) as u16,
            band: (bits >> 24) as u32,
            state,
            floats: std::array::from_fn(|_| random.pattern()),
        }
    }

    pub fn of(c: &Carrier) -> Self {
        let [x, y, z] = c.satellite;
        Self {
            constellation: c.constellation,
            svid: c.svid,
            band: c.band,
            state: c.state,
            floats: [c.adr, x, y, z, c.elevation, c.rate].map(f64::to_bits),
        }
    }

    pub fn carrier(&self) -> Carrier {
        let [adr, x, y, z, elevation, rate] = self.floats.map(f64::from_bits);
        Carrier {
            constellation: self.constellation,
            svid: self.svid,
            band: self.band,
            adr,
            state: self.state,
            satellite: [x, y, z],
            elevation,
            rate,
        }
    }

    /// Its 59 bytes, in the order of the request.
    pub fn bytes(&self) -> [u8; RECORD] {
        let [adr, x, y, z, elevation, rate] = self.floats;
        let mut out = [0; RECORD];
        let mut rest = &mut out[..];
        let mut put = |bytes: &[u8]| {
            let (here, behind) = std::mem::take(&mut rest).split_at_mut(bytes.len());
            here.copy_from_slice(bytes);
            rest = behind;
        };
        put(&self.constellation.to_le_bytes());
        put(&self.svid.to_le_bytes());
        put(&self.band.to_le_bytes());
        put(&adr.to_le_bytes());
        put(&self.state.to_le_bytes());
        for x in [x, y, z, elevation, rate] {
            put(&x.to_le_bytes());
        }
        out
    }

    /// The record of 59 bytes.
    pub fn read(bytes: &[u8; RECORD]) -> Self {
        let float = |at: usize| u64::from_le_bytes(bytes[at..at + 8].try_into().unwrap());
        Self {
            constellation: bytes[0],
            svid: u16::from_le_bytes(bytes[1..3].try_into().unwrap()),
            band: u32::from_le_bytes(bytes[3..7].try_into().unwrap()),
            state: i32::from_le_bytes(bytes[15..19].try_into().unwrap()),
            floats: [7, 19, 27, 35, 43, 51].map(float),
        }
    }

    /// Constellation, svid, band, state, six floats.
    fn numbers(&self) -> [u64; 10] {
        let [a, b, c, d, e, f] = self.floats;
        let (k, v, w) = (self.constellation, self.svid, self.band);
        [
            k.into(),
            v.into(),
            w.into(),
            self.state as u64,
            a,
            b,
            c,
            d,
            e,
            f,
        ]
    }
}

/// The bytes of some records.
pub fn bytes_of(records: &[Record]) -> Vec<u8> {
    records.iter().flat_map(Record::bytes).collect()
}

/// The records of some bytes, which are whole.
pub fn records_of(bytes: &[u8]) -> Vec<Record> {
    let each = bytes.chunks_exact(RECORD);
    each.map(|b| Record::read(b.try_into().unwrap())).collect()
}

/// The columns of some records.
fn columns(records: &[Record]) -> Records {
    Records {
        constellation: records.iter().map(|r| r.constellation).collect(),
        svid: records.iter().map(|r| r.svid).collect(),
        band: records.iter().map(|r| r.band).collect(),
        state: records.iter().map(|r| r.state).collect(),
        floats: records.iter().flat_map(|r| r.floats).collect(),
    }
}

/// How long each column is: constellation, svid, band, state, floats.
fn lengths(c: &Records) -> [usize; 5] {
    [
        c.constellation.len(),
        c.svid.len(),
        c.band.len(),
        c.state.len(),
        c.floats.len(),
    ]
}

/// Whether columns of these lengths have what so many records need.
fn fit(lengths: [usize; 5], n: usize) -> bool {
    n <= RECORDS && lengths[..4].iter().all(|&k| n <= k) && n <= lengths[4] / 6
}

/// Columns of these lengths, of any numbers.
fn lent(random: &mut Random, lengths: [usize; 5]) -> Records {
    let [k, v, b, s, f] = lengths;
    Records {
        constellation: (0..k).map(|_| random.bits() as u8).collect(),
        svid: (0..v).map(|_| random.bits() as u16).collect(),
        band: (0..b).map(|_| random.bits() as u32).collect(),
        state: (0..s).map(|_| random.bits() as i32).collect(),
        floats: (0..f).map(|_| random.bits()).collect(),
    }
}

/// The number that reading gives.
fn read_number(bytes: usize, lengths: [usize; 5]) -> u8 {
    match bytes % RECORD {
        0 if fit(lengths, bytes / RECORD) => 0,
        0 => 2,
        _ => 21,
    }
}

/// The columns with these records in their first places.
fn with(mut c: Records, records: &[Record]) -> Records {
    for (i, r) in records.iter().enumerate() {
        c.constellation[i] = r.constellation;
        c.svid[i] = r.svid;
        c.band[i] = r.band;
        c.state[i] = r.state;
        c.floats[6 * i..6 * i + 6].copy_from_slice(&r.floats);
    }
    c
}

/// Reading beside the plain reader; the number, the columns and the count afterwards.
fn judge_read(
    tally: &mut Tally,
    numbers: &mut Numbers,
    bytes: &[u8],
    before: Records,
    count: usize,
) -> (u8, Records) {
    let (mut ours, mut found) = (before.clone(), count);
    let number = read_records(bytes, &mut ours, &mut found);
    let wanted = read_number(bytes.len(), lengths(&before));
    numbers.count(wanted);
    let (columns, n) = match wanted {
        0 => (with(before, &records_of(bytes)), bytes.len() / RECORD),
        _ => (before, count),
    };
    let same = number == wanted && ours == columns && found == n;
    tally.judge(same, || {
        format!("reading {bytes:02X?}: ours {number}, {found}, {ours:?}, the model's {wanted}, {n}, {columns:?}")
    });
    (number, ours)
}

/// Writing beside the plain writer; the number and the bytes afterwards.
fn judge_write(
    tally: &mut Tally,
    numbers: &mut Numbers,
    columns: &Records,
    count: usize,
    before: Vec<u8>,
) -> (u8, Vec<u8>) {
    let mut ours = before.clone();
    let number = write_records(columns, count, &mut ours);
    let fits = fit(lengths(columns), count) && before.len() / RECORD >= count;
    let wanted = if fits { 0 } else { 2 };
    numbers.count(wanted);
    let mut bytes = before;
    if fits {
        for i in 0..count {
            let record = Record {
                constellation: columns.constellation[i],
                svid: columns.svid[i],
                band: columns.band[i],
                state: columns.state[i],
                floats: columns.floats[6 * i..6 * i + 6].try_into().unwrap(),
            };
            bytes[RECORD * i..RECORD * (i + 1)].copy_from_slice(&record.bytes());
        }
    }
    let same = number == wanted && ours == bytes;
    tally.judge(same, || {
        format!("writing {count} of {columns:?}: ours {number}, {ours:02X?}, the model's {wanted}, {bytes:02X?}")
    });
    (number, ours)
}

/// Every length from 0 to 66 records with one byte less and more, into columns of 64, of just enough, and
/// of one place less in each; and as many records written into as many bytes, and one byte less.
fn edges(tally: &mut Tally, numbers: &mut Numbers, random: &mut Random) {
    for n in 0..=66usize {
        let needed = [n, n, n, n, 6 * n];
        for length in [(RECORD * n).saturating_sub(1), RECORD * n, RECORD * n + 1] {
            let bytes: Vec<u8> = (0..length).map(|_| random.bits() as u8).collect();
            let mut rooms = vec![[64, 64, 64, 64, 384], [70, 70, 70, 70, 420], needed];
            for k in 0..5 {
                let mut short = needed;
                short[k] = short[k].saturating_sub(1);
                rooms.push(short);
            }
            for room in rooms {
                let before = lent(random, room);
                judge_read(tally, numbers, &bytes, before, random.bits() as usize);
                let before: Vec<u8> = (0..length).map(|_| random.bits() as u8).collect();
                let columns = lent(random, room);
                judge_write(tally, numbers, &columns, n, before);
            }
        }
    }
    // Counts whose bytes wrap.
    for count in [
        usize::MAX,
        usize::MAX / RECORD + 1,
        usize::MAX / 6 + 1,
        1 << 63,
    ] {
        let columns = lent(random, [64, 64, 64, 64, 384]);
        judge_write(tally, numbers, &columns, count, vec![7; 64 * RECORD]);
    }
}

/// Each float of a record in turn as a NaN of either sign, quiet or signalling, with each bit of the payload
/// alone and some payloads beside them.
fn payloads(tally: &mut Tally, numbers: &mut Numbers, random: &mut Random) {
    for place in 0..6 {
        for sign in [0, 1 << 63] {
            let alone = (0..52).map(|bit| 1u64 << bit);
            let some: Vec<u64> = (0..200).map(|_| random.bits() >> 12 | 1).collect();
            for payload in alone.chain(some) {
                let mut record = Record::random(random);
                record.floats[place] = sign | 0x7FF0_0000_0000_0000 | payload;
                there_and_back(tally, numbers, random, &[record]);
            }
        }
    }
}

/// Records that are written and read, with a byte and a place more than they need.
fn there_and_back(
    tally: &mut Tally,
    numbers: &mut Numbers,
    random: &mut Random,
    records: &[Record],
) {
    let n = records.len();
    let room = RECORD * n + random.place(2);
    let (number, bytes) = judge_write(tally, numbers, &columns(records), n, vec![0xA5; room]);
    let places = n + random.place(2);
    let before = lent(random, [places, places, places, places, 6 * places]);
    let (read, found) = judge_read(tally, numbers, &bytes[..RECORD * n], before, 7);
    let same = number == 0 && read == 0 && records_in(&found, n) == records;
    tally.judge(same, || format!("{records:?} came back as {found:?}"));
}

/// The first n records of columns.
fn records_in(c: &Records, n: usize) -> Vec<Record> {
    let record = |i: usize| Record {
        constellation: c.constellation[i],
        svid: c.svid[i],
        band: c.band[i],
        state: c.state[i],
        floats: c.floats[6 * i..6 * i + 6].try_into().unwrap(),
    };
    (0..n).map(record).collect()
}

/// Bytes that are read and written.
fn back_and_there(tally: &mut Tally, numbers: &mut Numbers, bytes: &[u8]) {
    let n = bytes.len() / RECORD;
    let before = Records {
        constellation: vec![0; n],
        svid: vec![0; n],
        band: vec![0; n],
        state: vec![0; n],
        floats: vec![0; 6 * n],
    };
    let (read, columns) = judge_read(tally, numbers, bytes, before, 7);
    let (number, found) = judge_write(tally, numbers, &columns, n, vec![0x5A; bytes.len()]);
    let same = read == 0 && number == 0 && found == bytes;
    tally.judge(same, || format!("{bytes:02X?} came back as {found:02X?}"));
}

/// How many records: mostly few.
fn some(random: &mut Random) -> usize {
    match random.below(16) {
        0 => 64,
        1 => random.place(65),
        _ => random.place(6),
    }
}

fn compare(tally: &mut Tally, random: &mut Random, count: u64) {
    let mut numbers = Numbers::default();
    edges(tally, &mut numbers, random);
    payloads(tally, &mut numbers, random);
    for place in 0..count {
        let n = some(random);
        if place % 2 == 0 {
            let records: Vec<Record> = (0..n).map(|_| Record::random(random)).collect();
            there_and_back(tally, &mut numbers, random, &records);
        } else {
            let mut bytes = Vec::with_capacity(RECORD * n + 8);
            while bytes.len() < RECORD * n {
                bytes.extend(random.bits().to_le_bytes());
            }
            bytes.truncate(RECORD * n);
            back_and_there(tally, &mut numbers, &bytes);
        }
    }
    tally.note(format!("{numbers}; {count} round trips, half each way"));
}

/// The plain reader and writer into lent columns and bytes, as calls, since ours are.
#[inline(never)]
fn plain_read(bytes: &[u8], c: &mut Records) {
    for (i, b) in bytes.chunks_exact(RECORD).enumerate() {
        let r = Record::read(b.try_into().unwrap());
        c.constellation[i] = r.constellation;
        c.svid[i] = r.svid;
        c.band[i] = r.band;
        c.state[i] = r.state;
        c.floats[6 * i..6 * i + 6].copy_from_slice(&r.floats);
    }
}

#[inline(never)]
fn plain_write(c: &Records, n: usize, bytes: &mut [u8]) {
    for (i, b) in bytes.chunks_exact_mut(RECORD).take(n).enumerate() {
        let record = Record {
            constellation: c.constellation[i],
            svid: c.svid[i],
            band: c.band[i],
            state: c.state[i],
            floats: c.floats[6 * i..6 * i + 6].try_into().unwrap(),
        };
        b.copy_from_slice(&record.bytes());
    }
}

fn time(random: &mut Random) {
    for n in [12, 30, 64] {
        let records: Vec<Record> = (0..n).map(|_| Record::random(random)).collect();
        let bytes = bytes_of(&records);
        let (mut ours, mut theirs) = (columns(&records), columns(&records));
        let mut count = 0;
        bench::row(
            "read records",
            n,
            1,
            || {
                black_box(read_records(black_box(&bytes), &mut ours, &mut count));
                black_box(&ours);
            },
            || {
                plain_read(black_box(&bytes), &mut theirs);
                black_box(&theirs);
            },
        );
        let (mut ours, mut theirs) = (bytes.clone(), bytes.clone());
        let columns = columns(&records);
        bench::row(
            "write records",
            n,
            1,
            || {
                black_box(write_records(black_box(&columns), n, &mut ours));
                black_box(&ours);
            },
            || {
                plain_write(black_box(&columns), n, &mut theirs);
                black_box(&theirs);
            },
        );
    }
}

/// Of so many records the answer is stored.
const SHOWN: usize = 3;

/// Lengths of columns for n records: as many as there are, more, or one less in one of them.
fn some_lengths(random: &mut Random, n: usize) -> [usize; 5] {
    let more = random.place(2);
    let mut lengths = [n + more, n + more, n + more, n + more, 6 * (n + more)];
    if random.below(4) == 0 {
        let k = random.place(5);
        lengths[k] = lengths[k].saturating_sub(1);
    }
    lengths
}

/// The bytes, the lengths of the columns; number, count, of the first three records ten numbers each (zeros where
/// there is none).
pub fn read(random: &mut Random) -> Vectors {
    let mut cases = Vec::new();
    let sizes = [
        0,
        1,
        58,
        59,
        60,
        117,
        118,
        119,
        177,
        64 * RECORD,
        65 * RECORD,
        65 * RECORD + 1,
    ];
    let more: Vec<usize> = (0..24)
        .map(|_| RECORD * (1 + random.place(SHOWN)))
        .collect();
    // Three records last, whose numbers are turned in the altered copies.
    for size in sizes.into_iter().chain(more).chain([177; 3]) {
        let mut records: Vec<Record> = (0..=size / RECORD)
            .map(|_| Record::random(random))
            .collect();
        // The last of the widest signs, so that each is met.
        records[0].state = random.pick(&[-1, i32::MIN, 1]);
        let mut bytes = bytes_of(&records);
        bytes.truncate(size);
        let n = size / RECORD;
        let lengths = match cases.len() {
            k if k < sizes.len() || n < SHOWN => some_lengths(random, n),
            _ => [n, n, n, n, 6 * n],
        };
        let number = read_number(size, lengths);
        let shown = if number == 0 { n } else { 0 };
        let mut given = packed(&bytes);
        given.extend(lengths.map(|n| n as u64));
        let mut answer = vec![u64::from(number), shown as u64];
        for i in 0..SHOWN {
            let record = if i < shown {
                records[i]
            } else {
                Record::default()
            };
            answer.extend(record.numbers());
        }
        cases.push((given, answer));
    }
    Vectors::of(cases)
}

/// How many records, the lengths of the columns, how many bytes are lent; of the first three records ten numbers each;
/// number, 24 numbers of eight bytes (zeros behind the records, and where refused).
pub fn write(random: &mut Random) -> Vectors {
    let case = |random: &mut Random, n: usize, lengths: [usize; 5], room: usize| -> Case {
        let records: Vec<Record> = (0..SHOWN).map(|_| Record::random(random)).collect();
        let given = [
            n, lengths[0], lengths[1], lengths[2], lengths[3], lengths[4], room,
        ];
        let mut given: Vec<u64> = given.map(|n| n as u64).to_vec();
        given.extend(records.iter().flat_map(Record::numbers));
        let fits = fit(lengths, n) && room / RECORD >= n;
        let mut bytes = if fits {
            bytes_of(&records[..n.min(SHOWN)])
        } else {
            Vec::new()
        };
        bytes.resize(24 * 8, 0);
        let mut answer = vec![if fits { 0 } else { 2 }];
        answer.extend(&packed(&bytes)[1..]);
        (given, answer)
    };
    let full = [64, 64, 64, 64, 384];
    let mut cases = vec![
        case(random, 0, [0; 5], 0),
        case(random, 64, full, 64 * RECORD - 1),
        case(random, 65, [66, 66, 66, 66, 396], 65 * RECORD),
        case(random, usize::MAX, full, 64 * RECORD),
        case(random, usize::MAX / RECORD + 1, full, 64 * RECORD),
        case(random, 3, full, 176),
    ];
    for _ in 0..16 {
        let n = random.place(SHOWN + 1);
        let lengths = some_lengths(random, n);
        let room = RECORD * n + random.place(2);
        cases.push(case(random, n, lengths, room));
    }
    // Three records last, whose bytes are turned in the altered copies.
    for _ in 0..25 {
        cases.push(case(random, SHOWN, [3, 3, 3, 3, 18], 177));
    }
    Vectors::of(cases)
}

#[cfg(test)]
mod tests {
    use super::*;

    /// The worked record of crates/wire/proofs/Values.antt.
    #[test]
    fn a_record_is_59_bytes_least_significant_first() {
        let record = Record {
            constellation: 1,
            svid: 0x0203,
            band: 0x0405_0607,
            state: -2,
            floats: [
                0x7FF0_0000_0000_0001,
                0x3FF0_0000_0000_0000,
                0xC000_0000_0000_0000,
                0,
                0x4056_8000_0000_0000,
                0x8000_0000_0000_0000,
            ],
        };
        let bytes = record.bytes();
        assert_eq!(
            bytes[..19],
            [1, 3, 2, 7, 6, 5, 4, 1, 0, 0, 0, 0, 0, 0xF0, 0x7F, 0xFE, 0xFF, 0xFF, 0xFF]
        );
        assert_eq!(bytes[19..27], [0, 0, 0, 0, 0, 0, 0xF0, 0x3F]);
        assert_eq!(
            bytes[43..],
            [0, 0, 0, 0, 0, 0x80, 0x56, 0x40, 0, 0, 0, 0, 0, 0, 0, 0x80]
        );
        assert_eq!(Record::read(&bytes), record);
    }
}
