//! Inputs: numbers of chance, and temperaments from their public numbers.

/// Numbers of chance from a seed (SplitMix64).
pub struct Chance(pub u64);

impl Chance {
    pub fn next(&mut self) -> u64 {
        self.0 = self.0.wrapping_add(0x9e37_79b9_7f4a_7c15);
        let mut z = self.0;
        z = (z ^ (z >> 30)).wrapping_mul(0xbf58_476d_1ce4_e5b9);
        z = (z ^ (z >> 27)).wrapping_mul(0x94d0_49bb_1331_11eb);
        z ^ (z >> 31)
    }

    pub fn below(&mut self, n: usize) -> usize {
        (self.next() % n as u64) as usize
    }

    /// From 0 to below 1.
    pub fn unit(&mut self) -> f64 {
        (self.next() >> 11) as f64 / (1u64 << 53) as f64
    }

    pub fn pick<T: Copy>(&mut self, list: &[T]) -> T {
        list[self.below(list.len())]
    }

    /// A pitch of the whole range.
    pub fn any_pitch(&mut self) -> f64 {
        (-20.0 + 60.0 * self.unit()).exp2()
    }

    /// A pitch that keyboards have.
    pub fn pitch(&mut self) -> f64 {
        440.0 * (-5.0 + 9.0 * self.unit()).exp2()
    }

    /// All keys, in an order of chance.
    pub fn keys(&mut self) -> Vec<u8> {
        let mut keys: Vec<u8> = (0..=255).collect();
        for i in (1..256).rev() {
            keys.swap(i, self.below(i + 1));
        }
        keys
    }
}

/// The f64 so many steps above, or below where negative.
pub fn step(x: f64, steps: i64) -> f64 {
    f64::from_bits((x.to_bits() as i64 + steps) as u64)
}

pub struct Temperament {
    pub name: String,
    /// Ratios over the first key, within one period.
    degrees: Vec<f64>,
    period: f64,
}

impl Temperament {
    fn new(name: impl Into<String>, degrees: Vec<f64>, period: f64) -> Temperament {
        Temperament { name: name.into(), degrees, period }
    }

    fn cents(name: &str, cents: &[f64]) -> Temperament {
        Temperament::new(name, cents.iter().map(|c| (c / 1200.0).exp2()).collect(), 2.0)
    }

    fn ratios(name: &str, ratios: &[(u32, u32)], period: f64) -> Temperament {
        Temperament::new(name, ratios.iter().map(|&(a, b)| f64::from(a) / f64::from(b)).collect(), period)
    }

    /// Twelve fifths, from E flat up to G sharp, put into one octave over C.
    fn fifths(name: &str, fifth: f64) -> Temperament {
        let mut degrees: Vec<f64> = (-3..9)
            .map(|i| {
                let r = fifth.powi(i);
                r / r.log2().floor().exp2()
            })
            .collect();
        degrees.sort_by(f64::total_cmp);
        Temperament::new(name, degrees, 2.0)
    }

    /// The pitch of a degree over a key 0 of this pitch.
    pub fn pitch(&self, of_zero: f64, degree: i32) -> f64 {
        let n = self.degrees.len() as i32;
        of_zero * self.period.powi(degree.div_euclid(n)) * self.degrees[degree.rem_euclid(n) as usize]
    }
}

/// Equal divisions from 5 to 53, and temperaments of twelve and thirteen degrees.
pub fn temperaments() -> Vec<Temperament> {
    let mut all: Vec<Temperament> = (5..=53)
        .map(|n| {
            let degrees = (0..n).map(|k| (f64::from(k) / f64::from(n)).exp2()).collect();
            Temperament::new(format!("{n} equal"), degrees, 2.0)
        })
        .collect();
    all.push(Temperament::fifths("Pythagorean", 1.5));
    all.push(Temperament::fifths("meantone, quarter comma", 5f64.powf(0.25)));
    all.push(Temperament::fifths("meantone, third comma", (10.0 / 3.0f64).powf(1.0 / 3.0)));
    all.push(Temperament::cents(
        "Kirnberger III",
        &[0.0, 90.225, 193.157, 294.135, 386.314, 498.045, 590.224, 696.578, 792.180, 889.735, 996.090, 1088.269],
    ));
    all.push(Temperament::cents(
        "Werckmeister III",
        &[0.0, 90.225, 192.180, 294.135, 390.225, 498.045, 588.270, 696.090, 792.180, 888.270, 996.090, 1092.180],
    ));
    all.push(Temperament::cents(
        "Vallotti",
        &[0.0, 94.135, 196.090, 298.045, 392.180, 501.955, 592.180, 698.045, 796.090, 894.135, 1000.0, 1090.225],
    ));
    all.push(Temperament::ratios(
        "just intonation",
        &[(1, 1), (16, 15), (9, 8), (6, 5), (5, 4), (4, 3), (45, 32), (3, 2), (8, 5), (5, 3), (9, 5), (15, 8)],
        2.0,
    ));
    let bohlen_pierce = (0..13).map(|k| 3f64.powf(f64::from(k) / 13.0)).collect();
    all.push(Temperament::new("Bohlen-Pierce, equal", bohlen_pierce, 3.0));
    all.push(Temperament::ratios(
        "Bohlen-Pierce, just",
        &[(1, 1), (27, 25), (25, 21), (9, 7), (7, 5), (75, 49), (5, 3), (9, 5), (49, 25), (15, 7), (7, 3), (63, 25), (25, 9)],
        3.0,
    ));
    all
}

/// Concert pitches of A that organs have, and that of C in the usual tuning.
pub const REFERENCES: [f64; 7] = [440.0, 415.0, 392.0, 432.0, 442.0, 465.0, 261.6255653005986];
