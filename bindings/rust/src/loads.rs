//! How many entries a list takes before a hold is refused, from the loads that were measured:
//! `docs/evidence/first_refusal.csv` has them, of lists that were filled with tags that differ
//! throughout.

/// How many entries a list of these settings, which pass, can be expected to take.
pub(crate) fn entries(rule: u32, width: u32, buckets: u32) -> usize {
    // a home bucket with fewer than four entries has room; under the ring rule the two candidates are
    // never the same bucket, and of eight entries none is without room
    let always = if rule == 1 { 8 } else { 4 };
    let (parts, width) = parts(rule, width, buckets);
    let buckets = buckets / parts;
    let cells = 4 * buckets as usize;
    let mut room = cells * permille(rule, width, buckets) as usize / 1000;
    if !buckets.is_power_of_two() {
        // small lists between two powers took a few entries less than the lower load gives them
        room = room.saturating_sub(4);
    }
    room = room.max(always);
    if parts == 1 {
        return room;
    }
    // a list is refused a hold when one part is, and its entries fall on the parts by chance: let a part
    // that gets its share and eight times the root of it have room
    let share = ((room as f64 + 16.0).sqrt() - 4.0).powi(2);
    always.max((f64::from(parts) * share) as usize)
}

/// The load that every measured list of a rule, a width and a bucket count reached before a hold was
/// refused: in thousandths of its cells, rounded down.
///
/// The bucket counts that were measured are powers of two. Another one, between two of them, has the
/// lower load of the two. Up to width 8 the offsets of all fingerprints lie at equal distances, which fall
/// differently for each count, and some counts filled less than both powers: so the load is taken lower
/// still.
fn permille(rule: u32, width: u32, buckets: u32) -> u32 {
    let loads = &LOADS[rule as usize][width as usize - 4];
    let floor = 31 - buckets.leading_zeros() as usize;
    if buckets.is_power_of_two() {
        return u32::from(loads[floor]);
    }
    let lower = match width {
        4 => 100,
        5..=8 => 30,
        _ => 0,
    };
    u32::from(loads[floor].min(loads[floor + 1])).saturating_sub(lower)
}

/// How many parts a list is to be taken for, that cannot help each other, and the width whose loads it
/// has.
///
/// That is one part, and its own width, but for some rings. Up to width 8 the second byte that is hashed
/// for an offset is 0, and the offsets of any two fingerprints differ by a multiple of 435 × (2^41 + 435),
/// as the FNV prime is 2^40 + 435. Where half the bucket count shares factors with it, all offsets have
/// the same remainder by these: the ring is as many rings, and no entry has candidates in two.
///
/// With each bit from the ninth on there are about twice as many remainders. If these are all, the ring
/// is whole. If not, up to width 11 it is taken for as many rings still, since few offsets join them, and
/// from width 12 on it has the loads of the narrowest fingerprint, which has as few offsets.
fn parts(rule: u32, width: u32, buckets: u32) -> (u32, u32) {
    // the last factor, 55,921, is more than half of any bucket count
    let shared: u32 = [3, 5, 29, 2_141, 18_367]
        .into_iter()
        .filter(|factor| rule == 1 && (buckets / 2) % factor == 0)
        .product();
    let remainders = (1 << (width.max(8) - 7)) - 1;
    match width {
        _ if shared <= remainders => (1, width),
        4..=11 => (shared, width),
        _ => (1, 4),
    }
}

#[cfg(test)]
mod tests;

/// By rule, width less 4, and the power of two that the bucket count is; 0 where there is no such list.
/// `./evidence` writes this table.
#[rustfmt::skip]
const LOADS: [[[u16; 17]; 13]; 3] = [
    // rule 0, plain
    [
        [1000,  500,  625,  781,  843,  835,  933,  939,  952,  965,  967,  972,  975,  967,  971,  972,  974], // width 4
        [1000,  500,  562,  625,  828,  914,  925,  947,  957,  969,  970,  973,  976,  976,  978,  978,  978], // width 5
        [1000,  625,  625,  687,  828,  921,  925,  945,  948,  965,  970,  974,  976,  978,  978,  978,  979], // width 6
        [1000,  500,  687,  750,  828,  890,  925,  949,  959,  968,  971,  973,  977,  977,  978,  979,  979], // width 7
        [1000,  625,  625,  625,  781,  914,  925,  953,  952,  967,  969,  973,  977,  977,  978,  979,  979], // width 8
        [1000,  500,  500,  781,  843,  906,  929,  943,  960,  964,  971,  973,  976,  976,  979,  979,  979], // width 9
        [1000,  500,  625,  718,  812,  914,  921,  951,  955,  966,  968,  974,  977,  977,  978,  980,  979], // width 10
        [1000,  500,  625,  718,  796,  906,  933,  947,  956,  965,  968,  974,  976,  978,  979,  979,  979], // width 11
        [1000,  500,  687,  687,  859,  906,  921,  943,  955,  965,  968,  973,  977,  978,  979,  979,  979], // width 12
        [1000,  625,  625,  562,  750,  914,  933,  943,  961,  964,  972,  975,  976,  978,  978,  979,  979], // width 13
        [1000,  500,  562,  718,  843,  921,  929,  941,  958,  966,  970,  974,  977,  978,  979,  979,  979], // width 14
        [1000,  500,  625,  750,  812,  914,  925,  945,  958,  962,  971,  975,  976,  978,  979,  979,  980], // width 15
        [1000,  500,  687,  781,  796,  867,  925,  943,  955,  965,  971,  975,  976,  977,  979,  979,  979], // width 16
    ],
    // rule 1, ring
    [
        [   0, 1000,  562,  812,  828,  914,  921,  886,  819,  832,  854,  825,  804,  814,  823,  825,  824], // width 4
        [   0, 1000,  750,  750,  796,  914,  906,  951,  935,  881,  895,  905,  890,  871,  903,  896,  892], // width 5
        [   0, 1000,  625,  781,  875,  906,  917,  945,  960,  963,  937,  949,  932,  933,  945,  943,  944], // width 6
        [   0, 1000,  625,  781,  718,  921,  925,  951,  960,  963,  967,  975,  968,  962,  968,  967,  966], // width 7
        [   0, 1000,  750,  812,  843,  890,  933,  951,  960,  967,  971,  975,  976,  978,  977,  974,  975], // width 8
        [   0, 1000,  500,  812,  859,  906,  937,  949,  957,  966,  971,  974,  975,  977,  979,  979,  979], // width 9
        [   0, 1000,  687,  812,  859,  890,  929,  945,  960,  966,  971,  974,  976,  977,  979,  979,  980], // width 10
        [   0, 1000,  625,  812,  843,  914,  937,  949,  953,  966,  973,  974,  977,  976,  978,  979,  979], // width 11
        [   0, 1000,  562,  843,  859,  914,  937,  949,  961,  967,  972,  974,  977,  978,  979,  979,  980], // width 12
        [   0, 1000,  687,  562,  875,  890,  929,  955,  958,  962,  970,  974,  976,  978,  979,  979,  979], // width 13
        [   0, 1000,  687,  750,  843,  890,  929,  947,  960,  965,  972,  974,  976,  977,  979,  980,  980], // width 14
        [   0, 1000,  625,  812,  859,  906,  917,  949,  959,  967,  971,  974,  975,  978,  978,  980,  980], // width 15
        [   0, 1000,  750,  781,  843,  882,  933,  949,  954,  968,  969,  974,  975,  978,  979,  980,  979], // width 16
    ],
    // rule 2, masked
    [
        [   0,    0,  625,  781,  953,  976,  988,  992,  998,  998,  999,  999,  999,  999,  999,  999,  999], // width 4
        [   0,    0,  750,  625,  859,  968,  988,  994,  998,  998,  999,  999,  999,  999,  999,  999,  999], // width 5
        [   0,    0,  625,  718,  937,  984,  988,  992,  997,  999,  999,  999,  999,  999,  999,  999,  999], // width 6
        [   0,    0,  687,  843,  937,  976,  992,  992,  997,  998,  999,  999,  999,  999,  999,  999,  999], // width 7
        [   0,    0,  625,  625,  921,  984,  988,  996,  997,  998,  999,  999,  999,  999,  999,  999,  999], // width 8
        [   0,    0,  500,  843,  968,  960,  988,  996,  997,  998,  999,  999,  999,  999,  999,  999,  999], // width 9
        [   0,    0,  625,  718,  953,  976,  992,  996,  997,  998,  999,  999,  999,  999,  999,  999,  999], // width 10
        [   0,    0,  625,  718,  937,  976,  988,  994,  997,  998,  999,  999,  999,  999,  999,  999,  999], // width 11
        [   0,    0,  687,  875,  937,  984,  988,  994,  997,  998,  999,  999,  999,  999,  999,  999,  999], // width 12
        [   0,    0,  625,  562,  953,  984,  988,  994,  998,  998,  999,  999,  999,  999,  999,  999,  999], // width 13
        [   0,    0,  562,  781,  953,  976,  984,  994,  997,  998,  999,  999,  999,  999,  999,  999,  999], // width 14
        [   0,    0,  625,  843,  953,  976,  988,  994,  997,  998,  999,  999,  999,  999,  999,  999,  999], // width 15
        [   0,    0,  687,  781,  953,  976,  992,  994,  995,  999,  999,  999,  999,  999,  999,  999,  999], // width 16
    ],
];
