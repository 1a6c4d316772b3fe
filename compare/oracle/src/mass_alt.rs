//! Stands in for mass.rs under the feature altmass, so that every capital letter and every f32 can be tried as a mass.
use serde::{Deserialize, Serialize};
use std::ops::Mul;
use std::sync::atomic::{AtomicU32, Ordering};

pub const H2O: f32 = 18.010565;
pub const PROTON: f32 = 1.0072764;
pub const NEUTRON: f32 = 1.00335;
pub const NH3: f32 = 17.026548;

/// Named by modules that the protocol never reaches: it only has to compile.
#[derive(Copy, Clone, Serialize, Deserialize, Debug, PartialEq, PartialOrd)]
pub enum Tolerance {
    Ppm(f32, f32),
    Pct(f32, f32),
    Da(f32, f32),
}

impl Tolerance {
    pub fn bounds(&self, center: f32) -> (f32, f32) {
        (center, center)
    }
    pub fn contains(&self, _: f32, _: f32) -> bool {
        false
    }
    pub fn ppm_to_delta_mass(center: f32, ppm: f32) -> f32 {
        center * ppm
    }
}

impl Mul<f32> for Tolerance {
    type Output = Tolerance;
    fn mul(self, _: f32) -> Tolerance {
        self
    }
}

pub const VALID_AA: [u8; 26] = *b"ABCDEFGHIJKLMNOPQRSTUVWXYZ";

/// The bit patterns of the masses of A to Z.
pub static MASSES: [AtomicU32; 26] = [const { AtomicU32::new(0x3f800000) }; 26];

pub fn monoisotopic(aa: u8) -> f32 {
    match aa.is_ascii_uppercase() {
        true => f32::from_bits(MASSES[(aa - b'A') as usize].load(Ordering::Relaxed)),
        false => 0.0,
    }
}
