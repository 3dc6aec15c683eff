//! A selection by pins: the meaning that the byte path, which has nothing of this, is held against.

use crate::part::spi_pin;
use crate::{Selected, NOTHING};

/// The trace that spells a selection: CS# falls with SCK low and SI 0, each bit is a sample with SCK
/// high and one with SCK low, and CS# rises with SI kept. HOLD# is 1 throughout.
pub fn spelled(wp: bool, input: &[u8]) -> Vec<u8> {
    let others = spi_pin::HOLD | if wp { spi_pin::WP } else { 0 };
    let mut out = vec![4, others];
    let mut low = others;
    for byte in input {
        for place in (0..8).rev() {
            let si = byte >> place & 1;
            low = others | (si * spi_pin::SI);
            out.extend([4, low | spi_pin::SCK, 4, low]);
        }
    }
    out.extend([4, low | spi_pin::CS]);
    out
}

/// The bits that come back of a selection of so many bytes, by the answers of its samples. Each is
/// the answer just before the rise that takes the bit in the same place: that of the sample in which
/// CS# fell, then those of the falls of SCK but the last.
pub fn bits_back(answers: &[u8], length: usize) -> Vec<u8> {
    let before_rises = answers.iter().copied().step_by(2);
    before_rises.take(8 * length).collect()
}

/// The bytes of these bits, 1 where nothing is driven, and the figures. A byte is driven if one of
/// its bits is.
pub fn bytes_back(bits: &[u8]) -> (Vec<u8>, Selected) {
    let byte = |eight: &[u8]| eight.iter().fold(0, |sum, &bit| sum << 1 | bit.min(1));
    let driven = |eight: &[u8]| eight.iter().any(|&bit| bit != NOTHING);
    let bytes = bits.chunks(8);
    let first = bytes.clone().position(driven).unwrap_or(bytes.len());
    let selected = Selected {
        number: 0,
        first: first as u64,
        count: bytes.clone().filter(|eight| driven(eight)).count() as u64,
    };
    (bytes.map(byte).collect(), selected)
}
