//! The whiteboard's readings (docs/RULES.md, S1 to S5, S7 and S8), practice beside live (S10) and grey (S11) through the Rust calls, long boxes, what a preview owes, a round trip, level four read and not written, and the byte that a refused plane names.
use auhowipi::*;

const LPTS: [u8; 4] = *b"LPTS";

fn picture(packets: &[(u32, &[u8])]) -> Vec<u8> {
    let mut file = vec![0xFF, 0xD8];
    for (number, payload) in packets {
        file.extend([0xFF, 0xEB]);
        file.extend((18 + payload.len() as u16).to_be_bytes());
        file.extend(b"JP\x00\x01");
        file.extend(number.to_be_bytes());
        file.extend(11u32.to_be_bytes());
        file.extend(LPTS);
        file.extend(*payload);
    }
    file.extend([0xFF, 0xDA]);
    file
}

fn refused<T>(answer: Result<T, Error>) -> (u32, u64, u64) {
    let error = answer.err().expect("a refusal");
    (error.number, error.place, error.second)
}

#[test]
fn a_box_and_its_listing() {
    let file = picture(&[(1, &[0xAA, 0xBB, 0xCC])]);
    let mut bytes = [7u8; 5];
    assert_eq!(box_bytes(&file, LPTS, 1, &mut bytes), Ok(3));
    assert_eq!(bytes, [0xAA, 0xBB, 0xCC, 7, 7]);
    assert_eq!(refused(box_bytes(&file, LPTS, 2, &mut bytes)), (4, 0, 0));
    assert_eq!(bytes, [0; 5]);
    let mut text = [0u8; 100];
    let n = list_packets(&file, &mut text).unwrap();
    assert_eq!(&text[..n], b"instance number bytes type\n1 1 3 4C505453\nanswer 0 0\n");
}

#[test]
fn two_packets_numbered_one() {
    let mut bytes = [7u8; 8];
    let twice = picture(&[(1, &[1]), (1, &[2, 3])]);
    assert_eq!(refused(box_bytes(&twice, LPTS, 1, &mut bytes)), (6, 1, 0));
    let missing = picture(&[(1, &[1]), (3, &[2, 3])]);
    assert_eq!(refused(box_bytes(&missing, LPTS, 1, &mut bytes)), (7, 2, 0));
    assert_eq!(bytes, [0; 8]);
    assert_eq!(Error { number: 6, place: 1, second: 0 }.to_string(), "two packets claim the same sequence number (6, place 1)");
}

fn short_packet(instance: u16, number: u32, lbox: u32, payload: &[u8]) -> Vec<u8> {
    let size = 18 + payload.len() as u16;
    [&[0xFF, 0xEB][..], &size.to_be_bytes(), b"JP", &instance.to_be_bytes(), &number.to_be_bytes(), &lbox.to_be_bytes(), &LPTS, payload].concat()
}

/// A packet of a box of four bytes.
fn packet(instance: u16, number: u32, payload: &[u8]) -> Vec<u8> {
    short_packet(instance, number, 12, payload)
}

fn file(segments: &[&[u8]]) -> Vec<u8> {
    [&[0xFF, 0xD8][..], &segments.concat(), &[0xFF, 0xDA]].concat()
}

#[test]
fn practice_beside_live() {
    let (first, second, practice, intruder) = (packet(1, 1, b"9."), packet(1, 2, b"58"), packet(2, 1, b"9.99"), packet(1, 1, b"9.99"));
    for segments in [&[&first[..], &second][..], &[&practice, &first, &second], &[&first, &practice, &second], &[&second, &first, &practice]] {
        let mut bytes = [46u8; 6];
        assert_eq!(box_bytes(&file(segments), LPTS, 1, &mut bytes), Ok(4));
        assert_eq!(&bytes, b"9.58..");
    }
    let mut bytes = [46u8; 6];
    assert_eq!(box_bytes(&file(&[&first, &practice, &second]), LPTS, 2, &mut bytes), Ok(4));
    assert_eq!(&bytes, b"9.99..");
    assert_eq!(refused(box_bytes(&file(&[&first, &second, &intruder]), LPTS, 1, &mut bytes)), (6, 1, 0));
    assert_eq!(bytes, [0; 6]);
}

/// A packet in the long form: LBox 1, and the stated length behind the type.
fn long_packet(number: u32, stated: u64, payload: &[u8]) -> Vec<u8> {
    short_packet(1, number, 1, &[&stated.to_be_bytes(), payload].concat())
}

#[test]
fn long_boxes() {
    let (whole, first, second) = (long_packet(1, 20, b"9.58"), long_packet(1, 20, b"9."), long_packet(2, 20, b"58"));
    for segments in [&[&packet(1, 1, b"9.58")[..]][..], &[&whole], &[&second, &first]] {
        let mut bytes = [46u8; 6];
        assert_eq!(box_bytes(&file(segments), LPTS, 1, &mut bytes), Ok(4));
        assert_eq!(&bytes, b"9.58..");
    }
    let mut text = [0u8; 100];
    let n = list_packets(&file(&[&second, &first]), &mut text).unwrap();
    assert_eq!(&text[..n], b"instance number bytes type\n1 2 2 4C505453\n1 1 2 4C505453\nanswer 0 0\n");
    // 5: two forms, each with the length of the box in it, or with equal numbers; two lengths
    // 8: the largest length. 3: a length below 16; a segment of 25 bytes with LBox 1
    for (segments, refusal) in [
        (&[&first[..], &packet(1, 2, b"58")][..], (5, 0, 0)),
        (&[&first, &short_packet(1, 2, 20, b"58")], (5, 0, 0)),
        (&[&first, &long_packet(2, 20 + (1 << 32), b"58")], (5, 0, 0)),
        (&[&long_packet(1, 12 + (1 << 32), b"9.58")], (8, 4, 0)),
        (&[&long_packet(1, u64::MAX, b"9.58")], (8, 4, 0)),
        (&[&long_packet(1, 15, b"9.58")], (3, 2, 0)),
        (&[&whole, &short_packet(2, 1, 1, &[0; 7])], (3, 34, 0)),
    ] {
        let mut bytes = [46u8; 6];
        assert_eq!(refused(box_bytes(&file(segments), LPTS, 1, &mut bytes)), refusal);
        assert_eq!(bytes, [0; 6]);
    }
}

const COUNTS: [u8; 16] = [0, 3, 0, 0, 0, 0, 0, 0, 0, 0, 0, 0, 0, 0, 0, 0];
const CODES: [u8; 3] = [0x00, 0x01, 0xF0];
const T: Table = Table { counts: &COUNTS, codes: &CODES };

#[test]
fn ac_planes() {
    let zero = [0i32; 63];
    let mut three = zero;
    three[0] = 3;
    let mut out = [7i32; 63];
    assert_eq!(read_ac_plane(1, 1, T, &[0x67], &zero, &mut out), Ok(63));
    assert_eq!(out[..2], [1, 0]);
    assert_eq!(read_ac_plane(1, 1, T, &[0x3F], &three, &mut out), Ok(63));
    assert_eq!(out[0], 7);
    assert_eq!(read_ac_plane(1, 1, T, &[0x43], &three, &mut out), Ok(63));
    assert_eq!(out[..3], [6, -1, 0]);
    assert_eq!(refused(read_ac_plane(1, 1, T, &[0x43], &zero, &mut out)), (18, 1, 0));
    assert_eq!(out, [0; 63]);
    assert_eq!(refused(read_ac_plane(1, 1, T, &[], &zero, &mut out)), (12, 0, 0));
}

#[test]
fn dc_planes() {
    let mut out = [0i32; 3];
    assert_eq!(read_dc_plane(1, 3, &[0xBF], &[5, -1, 0], &mut out), Ok(3));
    assert_eq!(out, [11, -2, 1]);
    let mut bytes = [0u8; 2];
    assert_eq!(write_dc_plane(1, 8, &[1; 8], &mut bytes), Ok(2));
    assert_eq!(bytes, [0xFF, 0x00]);
}

/// What reading an AC plane 1 refuses: number, block, and the byte to look at.
fn ac_refusal(table: Table, data: &[u8], values: &[i32]) -> (u32, u64, u64) {
    let mut out = vec![7i32; values.len()];
    let refusal = refused(read_ac_plane(1, values.len() / 63, table, data, values, &mut out));
    assert!(out.iter().all(|&v| v == 0));
    refusal
}

/// A table of three codes of two bits, as T, with other values.
fn coded(codes: &[u8; 3]) -> Table<'_> {
    Table { counts: &COUNTS, codes }
}

/// A block whose first so many values are 3, which take a correction bit each, and whose others are zeros.
fn threes(n: usize) -> Vec<i32> {
    (0..63).map(|p| if p < n { 3 } else { 0 }).collect()
}

/// 12: the data's length, also where an FF is the last byte. 13: its FF.
#[test]
fn the_byte_where_data_end_or_break() {
    let (one, two) = ([0i32; 63], [0i32; 126]);
    assert_eq!(ac_refusal(T, &[], &one), (12, 0, 0));
    assert_eq!(ac_refusal(T, &[0xFF], &one), (12, 0, 1));
    assert_eq!(ac_refusal(T, &[0xFF, 0x01], &one), (13, 0, 0));
    // 67 is 01 1, 00, and three bits of the next block's code: the fourth is asked of byte 1
    assert_eq!(ac_refusal(T, &[0x67], &two), (12, 1, 1));
    assert_eq!(ac_refusal(T, &[0x67, 0xFF], &two), (12, 1, 2));
    assert_eq!(ac_refusal(T, &[0x67, 0xFF, 0x01, 0x00], &two), (13, 1, 1));
    // 10 and 14 corrections fill BF FF; the code behind them is asked of byte 3
    assert_eq!(ac_refusal(T, &[0xBF, 0xFF, 0x00], &threes(14)), (12, 0, 3));
    assert_eq!(ac_refusal(T, &[0xBF, 0xFF, 0x00, 0xFF, 0xD9], &threes(14)), (13, 0, 3));
    let mut out = [7i32; 17];
    assert_eq!(refused(read_dc_plane(1, 9, &[0xA5], &[0; 9], &mut out)), (12, 8, 1));
    assert_eq!(refused(read_dc_plane(1, 9, &[0xA5, 0xFF], &[0; 9], &mut out)), (12, 8, 2));
    assert_eq!(refused(read_dc_plane(1, 9, &[0xA5, 0xFF, 0x01], &[0; 9], &mut out)), (13, 8, 1));
    assert_eq!(refused(read_dc_plane(1, 17, &[0xFF, 0x00, 0xA5, 0xFF, 0xD9], &[0; 17], &mut out)), (13, 16, 3));
}

/// 14: the byte of the 16th bit. 15: the byte of the code's last bit. A bit's byte is the FF, never its 00.
#[test]
fn the_byte_of_a_code() {
    assert_eq!(ac_refusal(T, &[0xFF, 0x00, 0xFF, 0x00], &[0; 63]), (14, 0, 2));
    assert_eq!(ac_refusal(T, &[0xFF, 0x00, 0xC0], &[0; 63]), (14, 0, 2));
    // three bits of 67, eight of the first FF, five of the second, at byte 3
    assert_eq!(ac_refusal(T, &[0x67, 0xFF, 0x00, 0xFF, 0x00, 0x00], &[0; 126]), (14, 1, 3));
    // 10 is 02, which refinement does not use; in 67 00 it is the last bit of byte 0 and the first of byte 1
    let unused = coded(&[0x00, 0x01, 0x02]);
    assert_eq!(ac_refusal(unused, &[0xBF], &[0; 63]), (15, 0, 0));
    assert_eq!(ac_refusal(unused, &[0x67, 0x00, 0x00], &threes(1)), (15, 0, 1));
    // behind 01 1 and 13 corrections
    assert_eq!(ac_refusal(unused, &[0x7F, 0xFF, 0x00, 0xBF], &threes(13)), (15, 0, 3));
}

/// 16: the byte of the last correction bit, else of the sign bit, else of the code's last bit.
#[test]
fn the_byte_where_a_block_is_full() {
    // 10 and 63 corrections: 65 bits
    assert_eq!(ac_refusal(T, &[0x80, 0, 0, 0, 0, 0, 0, 0, 0, 0], &threes(63)), (16, 0, 8));
    let stuffed = [&[0xBF][..], &[0xFF, 0x00].repeat(8)].concat();
    assert_eq!(ac_refusal(T, &stuffed, &threes(63)), (16, 0, 15));
    // 01 1 and 63 corrections: 66 bits
    assert_eq!(ac_refusal(T, &[0x60, 0, 0, 0, 0, 0, 0, 0, 0x3F], &threes(63)), (16, 0, 8));
    // the one code is 0, for F1: 0 s and a correction, 0 s, 0 s, then 0 in byte 0 and its sign in byte 1, with 14 zeros left for 16
    let counts = [1, 0, 0, 0, 0, 0, 0, 0, 0, 0, 0, 0, 0, 0, 0, 0];
    assert_eq!(ac_refusal(Table { counts: &counts, codes: &[0xF1] }, &[0x00, 0x80, 0x00], &threes(1)), (16, 0, 1));
    // 10 and a correction, 10, 10, then 10 in byte 0 and byte 1, with 14 zeros left for 16
    assert_eq!(ac_refusal(T, &[0x95, 0x00, 0x00], &threes(1)), (16, 0, 1));
    // 14 corrections in BF FF, then three times 10 in byte 3, the last with one zero left
    assert_eq!(ac_refusal(T, &[0xBF, 0xFF, 0x00, 0xAB], &threes(14)), (16, 0, 3));
}

/// 17: the byte of e's last bit. With r 0 there is no e, and a run of one block never passes the last one.
#[test]
fn the_byte_of_a_run() {
    assert_eq!(read_ac_plane(1, 1, T, &[0x3F], &[0; 63], &mut [7; 63]), Ok(63));
    // 00 is r 1: its code, and e in the same byte; or its code behind 01 1 and three corrections, and e in byte 1
    let runs = coded(&[0x10, 0x01, 0x30]);
    assert_eq!(ac_refusal(runs, &[0x1F], &[0; 63]), (17, 0, 0));
    assert_eq!(ac_refusal(runs, &[0x7C, 0x00], &threes(3)), (17, 0, 1));
    // 10 is r 3: behind 01 1 and 01 1 its code ends byte 0, and e stands in byte 1
    assert_eq!(ac_refusal(runs, &[0x6E, 0x00, 0x00], &[0; 63]), (17, 0, 1));
    assert_eq!(ac_refusal(runs, &[0x6E, 0xFF, 0x00], &[0; 63]), (17, 0, 1));
    // behind a stuffed FF: 01 1 and 13 corrections, then 10 111
    assert_eq!(ac_refusal(runs, &[0x7F, 0xFF, 0x00, 0xBF], &threes(13)), (17, 0, 3));
    // of two blocks 00 0 ends both, 00 1 one more; or 01 1 and 00 end the first, and 10 000 goes past the second
    assert_eq!(read_ac_plane(1, 2, runs, &[0x1F], &[0; 126], &mut [7; 126]), Ok(126));
    assert_eq!(ac_refusal(runs, &[0x20], &[0; 126]), (17, 0, 0));
    assert_eq!(ac_refusal(coded(&[0x00, 0x01, 0x30]), &[0x64, 0x00], &[0; 126]), (17, 1, 1));
}

#[test]
fn every_other_refusal_names_no_byte() {
    let (zero, high, mut out, mut bytes) = ([0i32; 63], [2048i32; 63], [7i32; 63], [7u8; 1]);
    assert_eq!(refused(read_ac_plane(5, 1, T, &[0x3F], &zero, &mut out)), (20, 0, 0));
    assert_eq!(refused(read_ac_plane(1, 2, T, &[0x3F], &zero, &mut out)), (21, 0, 0));
    assert_eq!(refused(read_ac_plane(1, 1, coded(&[0, 1, 1]), &[0x3F], &zero, &mut out)), (10, 0, 0));
    assert_eq!(refused(read_ac_plane(1, 1, T, &[0x3F], &high, &mut out)), (11, 0, 0));
    assert_eq!(refused(read_ac_plane(1, 1, T, &[0x3F], &zero, &mut out[..62])), (9, 63, 0));
    assert_eq!(refused(read_ac_plane(1, 1, T, &[0x3F, 0xFF], &zero, &mut out)), (18, 1, 0));
    assert_eq!(refused(read_dc_plane(0, 1, &[0xFF], &[0], &mut out)), (20, 0, 0));
    assert_eq!(refused(read_dc_plane(1, 1, &[0xBF, 0xFF], &[0], &mut out)), (18, 1, 0));
    assert_eq!(refused(write_dc_plane(1, 8, &[1; 8], &mut bytes)), (9, 2, 0));
    assert_eq!(refused(write_ac_plane(1, 1, coded(&[0x10, 0x01, 0xF0]), &zero, &mut bytes)), (19, 0, 0));
    assert_eq!(refused(write_dc_plane(4, 1, &[0], &mut bytes)), (28, 0, 0));
    assert_eq!(refused(write_ac_plane(4, 1, T, &zero, &mut bytes)), (28, 0, 0));
    assert_eq!(refused(list_packets(&picture(&[]), &mut bytes)), (9, 38, 0));
    assert_eq!(refused(inverse_transform(0, 1, &[2048; 64], &[1; 64], &mut [7; 64])), (11, 0, 0));
}

#[test]
fn a_refusal_in_words() {
    let said = |data: &[u8]| read_ac_plane(1, 1, T, data, &[0; 63], &mut [7; 63]).unwrap_err().to_string();
    assert_eq!(said(&[0xFF]), "the data end early (12, block 0, byte 1)");
    assert_eq!(said(&[0xFF, 0x01]), "an FF has no 00 after it (13, block 0, byte 0)");
    assert_eq!(said(&[0xFF, 0x00, 0xFF, 0x00]), "16 bits and no code (14, block 0, byte 2)");
    assert_eq!(said(&[0x43]), "the padding is not ones, or bytes are left (18, place 1)");
    assert_eq!(Error { number: 17, place: 4, second: 9 }.to_string(), "an end run passes the last block (17, block 4, byte 9)");
    assert_eq!(write_dc_plane(4, 1, &[0], &mut [7]).unwrap_err().to_string(), "this level is no longer written (28, place 0)");
    let meaning = |number: u32| Error { number, place: 0, second: 0 }.meaning();
    assert_eq!([22, 28].map(meaning), ["a quantiser entry is not 1 to 255", "this level is no longer written"]);
    assert_eq!([23, 24, 25, 26, 27, 29, u32::MAX].map(meaning), ["no such number"; 7]);
}

#[test]
fn samples() {
    for (s, sample) in [(16, 130), (3, 128), (4, 129), (-4, 127)] {
        let mut values = [0i32; 64];
        values[0] = s;
        let mut out = [0i32; 64];
        assert_eq!(inverse_transform(0, 1, &values, &[1; 64], &mut out), Ok(64));
        assert_eq!(out, [sample; 64]);
    }
}

#[test]
fn what_a_preview_owes() {
    let ones = [1u16; 64];
    for (left, owed) in [(0, 0), (1, 8), (2, 23), (3, 53), (4, 113)] {
        let mut out = [7u32; 66];
        assert_eq!(preview_owes(left, &ones, &mut out), Ok(64));
        assert_eq!(out[..64], [owed; 64]);
        assert_eq!(out[64..], [7, 7]);
    }
    let mut bad = ones;
    bad[8] = 256;
    bad[20] = 0;
    for (left, quantisers, room, refusal) in [(5, &ones[..], 66, (20, 0, 0)), (4, &ones[..63], 66, (21, 0, 0)), (4, &bad[..], 66, (22, 8, 0)), (4, &ones[..], 63, (9, 64, 0))] {
        let mut out = [7u32; 66];
        assert_eq!(refused(preview_owes(left, quantisers, &mut out[..room])), refusal);
        assert!(out[..room].iter().all(|&n| n == 0) && out[room..].iter().all(|&n| n == 7));
    }
}

fn plain(rb: u32) -> Setting<'static> {
    Setting { rb, rh: 0, rr: 0, components: 1, base_transform: false, curve: Curve::Straight, matrix: None, residual_transform: false }
}

#[test]
fn merged() {
    let mut out = [0u16; 1];
    assert_eq!(merge(plain(4), 1, &[128], None, &mut out), Ok(1));
    assert_eq!(out, [2056]);
    // step 4 scales the residual by 2^(Rb-Rr): at Rr 4 it is 1
    let with = Setting { rr: 4, ..plain(4) };
    for (base, residual, result) in [(128, 2050, 2058), (255, 2100, 4095), (0, 2000, 0)] {
        assert_eq!(merge(with, 1, &[base], Some(&[residual]), &mut out), Ok(1));
        assert_eq!(out, [result]);
    }
    let srgb = Setting { curve: Curve::Srgb, ..plain(8) };
    let mut four = [0u16; 4];
    assert_eq!(merge(srgb, 4, &[0, 1, 10, 255], None, &mut four), Ok(4));
    assert_eq!(four, [0, 20, 199, 65535]);
    assert_eq!(refused(merge(Setting { base_transform: true, ..plain(4) }, 1, &[1], None, &mut out)), (20, 0, 0));
}

/// S11 and its like: at Rb = Rh the straight curve leaves what step 1 gives. Behind them case f, four planes deeper.
#[test]
fn grey_at_every_refinement() {
    let mut out = [7u16; 4];
    for rh in 1..=4 {
        let coloured = Setting { rh, components: 3, base_transform: true, ..plain(rh) };
        let centre = 128 << rh;
        for y in [0, 1, 100 << rh, centre, 2 * centre - 1] {
            assert_eq!(merge(coloured, 1, &[y, centre, centre], None, &mut out), Ok(3));
            assert_eq!(out.map(i32::from), [y, y, y, 7]);
        }
    }
    let deep = Setting { rh: 4, components: 3, base_transform: true, ..plain(4) };
    assert_eq!(merge(deep, 1, &[1600, 2048, 2208], None, &mut out), Ok(3));
    assert_eq!(out, [1824, 1486, 1600, 7]);
}

/// 32 codes of six bits: every code that a plane can need.
fn every_code() -> ([u8; 16], Vec<u8>) {
    let mut counts = [0u8; 16];
    counts[5] = 32;
    (counts, (0..16).flat_map(|r| [16 * r, 16 * r + 1]).collect())
}

#[test]
fn three_planes_there_and_back() {
    let (counts, codes) = every_code();
    let table = Table { counts: &counts, codes: &codes };
    let blocks = 9;
    let full: Vec<i32> = (0..63 * blocks as i32).map(|i| if i % 5 == 0 { (i * 7919) % 32767 - 16383 } else { i % 3 - 1 }).collect();
    let ac = |j: u32| -> Vec<i32> { full.iter().map(|v| v / (1 << (3 - j))).collect() };
    let dc = |j: u32| -> Vec<i32> { full.iter().map(|v| v >> (3 - j)).collect() };
    for plane in 1..=3 {
        let mut bytes = vec![0u8; 100_000];
        let mut values = vec![0i32; full.len()];
        let n = write_ac_plane(plane, blocks, table, &ac(plane), &mut bytes).unwrap();
        assert_eq!(read_ac_plane(plane, blocks, table, &bytes[..n], &ac(plane - 1), &mut values), Ok(full.len()));
        assert_eq!(values, ac(plane));
        let n = write_dc_plane(plane, full.len(), &dc(plane), &mut bytes).unwrap();
        assert_eq!(read_dc_plane(plane, full.len(), &bytes[..n], &dc(plane - 1), &mut values), Ok(full.len()));
        assert_eq!(values, dc(plane));
    }
}

/// What writing a DC plane refuses; a destination of sevens is zeros then.
fn dc_not_written(plane: u32, blocks: usize, values: &[i32], room: usize) -> (u32, u64, u64) {
    let mut bytes = vec![7u8; room];
    let refusal = refused(write_dc_plane(plane, blocks, values, &mut bytes));
    assert!(bytes.iter().all(|&b| b == 0));
    refusal
}

/// The same of an AC plane.
fn ac_not_written(plane: u32, blocks: usize, table: Table, values: &[i32], room: usize) -> (u32, u64, u64) {
    let mut bytes = vec![7u8; room];
    let refusal = refused(write_ac_plane(plane, blocks, table, values, &mut bytes));
    assert!(bytes.iter().all(|&b| b == 0));
    refusal
}

/// A block of these values and zeros.
fn block(values: &[i32]) -> [i32; 63] {
    let mut all = [0; 63];
    all[..values.len()].copy_from_slice(values);
    all
}

/// 28 stands directly behind 20: no length, value or room matters to it.
#[test]
fn no_fourth_dc_plane_is_written() {
    let good = [16383, -16384, 5];
    let mut bytes = [7u8; 3];
    assert_eq!(write_dc_plane(3, 3, &good, &mut bytes), Ok(1));
    assert_eq!(bytes, [0xBF, 7, 7]);
    for (blocks, values, room) in [(3, &good[..], 9), (3, &[32767, -32768, 5], 9), (0, &[], 9), (3, &good[..2], 9), (2, &good, 9), (3, &[5, 32768, -32769], 9), (3, &good, 0), (2, &[32768], 0)] {
        assert_eq!(dc_not_written(4, blocks, values, room), (28, 0, 0));
    }
    assert_eq!(dc_not_written(4, 1024, &[1; 1024], 300), (28, 0, 0));
    assert_eq!(dc_not_written(4, 1025, &[1; 1025], 300), (20, 0, 0));
    assert_eq!(dc_not_written(5, 3, &good, 9), (20, 0, 0));
}

/// The same, and no table matters either.
#[test]
fn no_fourth_ac_plane_is_written() {
    let (good, high, bad, lacking) = (block(&[1]), block(&[0, 32768]), coded(&[0, 1, 1]), coded(&[0x10, 0x01, 0xF0]));
    let mut bytes = [7u8; 3];
    assert_eq!(write_ac_plane(3, 1, T, &good, &mut bytes), Ok(1));
    assert_eq!(bytes, [0x67, 7, 7]);
    for (blocks, table, values, room) in [
        (1, T, &good[..], 9),
        (1, T, &block(&[32767, -32767]), 9),
        (0, T, &[], 9),
        (1, T, &good[..62], 9),
        (1, bad, &good, 9),
        (1, lacking, &good, 9),
        (1, T, &high, 9),
        (1, T, &good, 0),
        (2, bad, &high, 0),
    ] {
        assert_eq!(ac_not_written(4, blocks, table, values, room), (28, 0, 0));
    }
    assert_eq!(ac_not_written(4, 1024, T, &[1; 64512], 9), (28, 0, 0));
    assert_eq!(ac_not_written(4, 1025, T, &[1; 64575], 9), (20, 0, 0));
    assert_eq!(ac_not_written(5, 1, T, &good, 9), (20, 0, 0));
}

#[test]
fn a_stored_fourth_plane_is_read() {
    // 1, 0, 1 and padding
    let mut three = [7i32; 4];
    assert_eq!(read_dc_plane(4, 3, &[0xBF], &[16383, -16384, 2], &mut three), Ok(3));
    assert_eq!(three, [32767, -32768, 5, 7]);
    // 01 0 for the new value and 1 for the correction before it, 00 and 0 for the one behind, padding
    let mut one = [7i32; 63];
    assert_eq!(read_ac_plane(4, 1, T, &[0x51], &block(&[16383, 0, -16383]), &mut one), Ok(63));
    assert_eq!(one, block(&[32767, -1, -32766]));
}

/// A plane's bytes do not depend on its number: those of plane 3, read as plane 4 from the halves, give the same values.
#[test]
fn bytes_of_the_third_plane_read_as_the_fourth() {
    let (counts, codes) = every_code();
    let table = Table { counts: &counts, codes: &codes };
    let (blocks, mut bytes) = (9, vec![0u8; 10_000]);
    let full: Vec<i32> = (0..63 * blocks as i32).map(|i| if i % 4 == 0 { (i * 7919) % 32767 - 16383 } else { i % 3 - 1 }).collect();
    let mut values = vec![7i32; full.len()];
    let n = write_ac_plane(3, blocks, table, &full, &mut bytes).unwrap();
    let halves: Vec<i32> = full.iter().map(|v| v / 2).collect();
    assert_eq!(read_ac_plane(4, blocks, table, &bytes[..n], &halves, &mut values), Ok(full.len()));
    assert_eq!(values, full);
    let n = write_dc_plane(3, full.len(), &full, &mut bytes).unwrap();
    let halves: Vec<i32> = full.iter().map(|v| v >> 1).collect();
    values.fill(7);
    assert_eq!(read_dc_plane(4, full.len(), &bytes[..n], &halves, &mut values), Ok(full.len()));
    assert_eq!(values, full);
}

/// Three components with every part of a setting different from every other, so that no two can be exchanged unnoticed.
/// The samples are those of tools/vectors/merge.py, which works in exact fractions.
#[test]
fn three_components() {
    let table: Vec<u16> = (0..512u32).map(|i| (i * 5 % 2048) as u16).collect();
    let matrix = [8192, 1024, -512, -300, 7000, 900, 100, -200, 9000];
    let base = [200, 310, 140, 120, 100, 160];
    let residual = [500, 530, 490, 520, 560, 470];
    let setting = Setting { rb: 3, rh: 1, rr: 2, components: 3, base_transform: true, curve: Curve::Table(&table), matrix: Some(&matrix), residual_transform: false };
    let mut out = [7u16; 7];
    assert_eq!(merge(setting, 2, &[200, 310, 280, 240, 230, 290], Some(&residual), &mut out), Ok(6));
    assert_eq!(out, [851, 1920, 957, 1349, 1415, 1451, 7]);
    let turned = Setting { base_transform: false, residual_transform: true, ..setting };
    assert_eq!(merge(turned, 2, &base, Some(&residual), &mut out), Ok(6));
    assert_eq!(out, [1167, 1493, 539, 634, 442, 947, 7]);
    let straight = Setting { rb: 2, rh: 3, rr: 4, curve: Curve::Straight, matrix: None, ..turned };
    assert_eq!(merge(straight, 2, &base.map(|v| 4 * v), Some(&residual.map(|v| 4 * v)), &mut out), Ok(6));
    assert_eq!(out, [455, 579, 241, 285, 149, 352, 7]);
    let srgb = Setting { rb: 8, rh: 0, rr: 1, curve: Curve::Srgb, matrix: None, ..setting };
    assert_eq!(merge(srgb, 2, &base, None, &mut out), Ok(6));
    assert_eq!(out, [23357, 65535, 45002, 65535, 47385, 65535, 7]);
    assert_eq!(refused(merge(setting, 2, &base, Some(&residual), &mut out[..5])), (9, 6, 0));
    assert_eq!(out, [0, 0, 0, 0, 0, 65535, 7]);
}
