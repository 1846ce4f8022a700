//! Stress at a strain, exactly, of concrete and of bars: a numerator and a denominator, which is above 0. Compression is positive. 64 bits
//! hold every product and are faster than 128; one that they don't hold would panic.
use super::section::Section;

/// A column of document 01's table: fck and the modulus E in N/mm², the mean flexural strength in kPa.
pub struct Concrete {
    pub fck: u16,
    pub flexural: i64,
    pub modulus: i64,
}

const fn concrete(fck: u16, flexural: i64, modulus: i64) -> Concrete {
    Concrete {
        fck,
        flexural,
        modulus,
    }
}

pub const TABLE: [Concrete; 7] = [
    concrete(20, 3700, 29000),
    concrete(25, 4300, 30500),
    concrete(30, 4800, 32000),
    concrete(35, 5300, 33500),
    concrete(40, 5800, 35000),
    concrete(45, 6300, 36000),
    concrete(50, 6800, 37000),
];

/// The whole numbers of a section's law.
#[derive(Debug, Clone, PartialEq, Eq)]
pub struct Law {
    pub fcd: i64,
    pub fyd: i64,
    /// A strain and its stress at each corner of the tension law, by rising strain: at -e3, -e2, -e1 and 0.
    pub corners: [(i64, i64); 4],
}

impl Law {
    /// The law of an accepted section.
    pub fn of(section: &Section) -> Law {
        Law::by(section, section.effective_depth())
    }

    /// The same with another effective depth, for a test to put it wrong.
    pub fn by(section: &Section, d: u16) -> Law {
        let concrete = TABLE
            .iter()
            .find(|concrete| concrete.fck == section.fck)
            .expect("an accepted section's concrete is in the table");
        let s1 = 7 * concrete.flexural * (1600 - i64::from(d)) / 10_000;
        let e1 = 1000 * s1 / concrete.modulus;
        let s2 = 45 * i64::from(section.feq2) / 100;
        let s3 = 37 * i64::from(section.feq3) / 100;
        Law {
            fcd: i64::from(section.fck) * 1000 * 17 / 30,
            fyd: i64::from(section.fyk) * 1000 * 100 / 115,
            corners: [(-10_000, -s3), (-e1 - 100, -s2), (-e1, -s1), (0, 0)],
        }
    }

    /// Which piece a strain of p / q is on, q above 0: 0 beyond e3, 1 to 3 the lines from the outermost in, 4 the parabola, 5 the plateau.
    pub fn piece(&self, p: i64, q: i64) -> usize {
        let [e3, e2, e1, zero] = self.corners.map(|(strain, _)| strain);
        let starts = [e3, e2, e1, zero, 2000];
        starts.iter().take_while(|start| *start * q <= p).count()
    }

    /// The concrete's stress at a strain of p / q, q above 0.
    pub fn stress(&self, p: i64, q: i64) -> (i64, i64) {
        match self.piece(p, q) {
            0 => (0, 1),
            line @ 1..=3 => between(self.corners[line - 1], self.corners[line], p, q),
            4 => (self.fcd * p * (4000 * q - p), 4_000_000 * q * q),
            _ => (self.fcd, 1),
        }
    }

    /// A bar's stress at a strain of p / q, q above 0.
    pub fn bar_stress(&self, p: i64, q: i64) -> (i64, i64) {
        let most = self.fyd * q;
        ((200 * p).clamp(-most, most), q)
    }
}

/// The stress at p / q on the line through two points.
fn between((ea, sa): (i64, i64), (eb, sb): (i64, i64), p: i64, q: i64) -> (i64, i64) {
    let run = (eb - ea) * q;
    (sa * run + (sb - sa) * (p - ea * q), run)
}
