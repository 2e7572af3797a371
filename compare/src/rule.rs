//! The rules of docs/SPEC.md, stated once more in whole numbers, by which every answer is known to the last bit. Nothing here asks the port, and
//! nothing the Rust.

use std::sync::LazyLock;

const STEP: f64 = 1.000001;

/// The measure of a positive finite number: its logarithm in steps of 2^-24, by twenty-four squarings.
pub fn measure(v: f64) -> i64 {
    let bits = v.to_bits();
    let (field, fraction) = ((bits >> 52) as i64, bits & ((1 << 52) - 1));
    // v is digits × 2^exponent, and subnormals are normalised.
    let (digits, exponent) = if field == 0 { (fraction, -1074) } else { (fraction | 1 << 52, field - 1075) };
    let length = 64 - i64::from(digits.leading_zeros());
    let mut y = u128::from(digits) << 64 >> (length + 32);
    let mut l = exponent + length - 1;
    for _ in 0..24 {
        let z = (y * y) >> 31;
        let digit = z >> 32;
        y = z >> digit;
        l = 2 * l + digit as i64;
    }
    l
}

/// The fine value of a detuning.
pub fn fine(detuning: f64) -> i32 {
    (8192 + (3 * measure(detuning)).div_euclid(512)).clamp(0, 16383) as i32
}

/// The bend value of a detuning.
pub fn bend(detuning: f64) -> i32 {
    (3 * measure(detuning) / 1024).clamp(-8192, 8191) as i32
}

/// A product of whole numbers of any length, as digits to the base 2^32, lowest first.
fn times(a: &[u64], b: &[u64]) -> Vec<u64> {
    let mut product = vec![0; a.len() + b.len()];
    for (i, x) in a.iter().enumerate() {
        let mut carry = 0;
        for (j, y) in b.iter().enumerate() {
            let sum = product[i + j] + x * y + carry;
            product[i + j] = sum & 0xffff_ffff;
            carry = sum >> 32;
        }
        product[i + b.len()] += carry;
    }
    product
}

/// Whether the twelfth power of a number is more than 2^exponent; it is never equal for those asked.
fn twelfth_power_above(x: u64, exponent: usize) -> bool {
    let once = [x & 0xffff_ffff, x >> 32];
    let third = times(&times(&once, &once), &once);
    let sixth = times(&third, &third);
    let twelfth = times(&sixth, &sixth);
    let (digit, bit) = (exponent / 32, exponent % 32);
    twelfth[digit + 1..].iter().any(|&d| d != 0) || twelfth.get(digit).is_some_and(|&d| d >> bit != 0)
}

/// R[k] = m/2^52 with (2m-1)^12 < 2^(k+636) < (2m+1)^12.
static FACTORS: LazyLock<[f64; 12]> = LazyLock::new(|| {
    std::array::from_fn(|k| {
        // The first m of 2^52 and up for which the second inequality holds, by halving.
        let (mut low, mut high) = (1u64 << 52, 1u64 << 53);
        while low < high {
            let m = (low + high) / 2;
            if twelfth_power_above(2 * m + 1, k + 636) { high = m } else { low = m + 1 }
        }
        assert!(!twelfth_power_above(2 * low - 1, k + 636));
        low as f64 / (1u64 << 52) as f64
    })
});

/// The pitch of a note, in Hz.
pub fn note_pitch(note: i32) -> f64 {
    let octave = 440.0 * f64::from_bits(((note - 69).div_euclid(12) as i64 + 1023) as u64 * (1 << 52));
    octave * FACTORS[(note - 69).rem_euclid(12) as usize]
}

/// The nearest note of a pitch in range, and its detuning.
pub fn nearest(hz: f64) -> (i32, f64) {
    let note = 69 + (12 * measure(hz / 440.0) + 8_388_608 - 290).div_euclid(1 << 24) as i32;
    (note, hz / note_pitch(note))
}

/// A plan: how many channels it needs, each key's channel and note, and the highest detuning that each channel took.
pub struct Plan {
    pub count: usize,
    pub places: Vec<Option<(usize, i32)>>,
    pub tops: Vec<f64>,
}

/// The number of a note's group, from 0.
fn group_of(group: u8, note: i32) -> usize {
    match group {
        0 => (note + 300) as usize,
        1 => note.rem_euclid(12) as usize,
        _ => 0,
    }
}

/// The walk over the waiting keys, channel by channel.
pub fn plan(group: u8, keys: &[u8], notes: &[i32], detunings: &[f64]) -> Plan {
    let mut waiting: Vec<usize> = (0..keys.len()).collect();
    waiting.sort_by(|&a, &b| detunings[a].total_cmp(&detunings[b]));
    let mut plan = Plan { count: 0, places: vec![None; 256], tops: Vec::new() };
    while !waiting.is_empty() {
        let mut latest = [None; 801];
        let mut top = 0.0;
        waiting.retain(|&i| {
            let of = &mut latest[group_of(group, notes[i])];
            let taken = of.is_none_or(|before: f64| (0.999999..STEP).contains(&(detunings[i] / before)));
            if taken {
                *of = Some(detunings[i]);
                top = detunings[i];
                plan.places[usize::from(keys[i])] = Some((plan.count, notes[i]));
            }
            !taken
        });
        plan.count += 1;
        plan.tops.push(top);
    }
    plan
}

/// The bytes that tune a MIDI channel.
pub fn tuning(bends: bool, channel: u8, detuning: f64) -> Vec<u8> {
    if bends {
        let value = bend(detuning) + 8192;
        return vec![0xe0 | channel, (value % 128) as u8, (value / 128) as u8];
    }
    let value = fine(detuning);
    let control = |number, value: i32| [0xb0 | channel, number, value as u8];
    [control(0x65, 0), control(0x64, 1), control(0x06, value / 128), control(0x26, value % 128)].concat()
}

/// The bytes of a note message, or none where MIDI has no such note.
pub fn note_message(kind: u8, channel: u8, note: i32, value: u8) -> Vec<u8> {
    if (0..128).contains(&note) { vec![kind << 4 | channel, note as u8, value] } else { Vec::new() }
}
