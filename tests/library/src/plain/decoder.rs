//! Corrections for syndromes.

use super::limits::check_limits;
use super::walk::{radius, Masks, Walk};
use super::words::Words;
use super::{letters, refusal};
use reinoften::{Code, Pauli, Refusal};

/// Writes the letters of the correction, and answers how many there are; or none.
#[inline(never)]
#[allow(improper_ctypes_definitions)]
pub extern "C" fn decode<W: Walk>(
    code: Code,
    characters: &[u8],
    out: &mut [u8],
) -> Result<Option<usize>, Refusal> {
    check_limits(&code)?;
    let want = read_syndrome(code.r, characters).ok_or(refusal(16, 0))?;
    let out = out.get_mut(..code.n).ok_or(refusal(17, 0))?;
    let Some((a, b)) = W::correct(&code, want) else {
        return Ok(None);
    };
    for (byte, letter) in out.iter_mut().zip(letters(code.n, a, b)) {
        *byte = letter;
    }
    Ok(Some(code.n))
}

/// The correction for a syndrome by value; or none.
#[inline(never)]
#[allow(improper_ctypes_definitions)]
pub extern "C" fn correct<W: Walk>(code: Code, syndrome: u32) -> Result<Option<Pauli>, Refusal> {
    check_limits(&code)?;
    if syndrome >> code.r != 0 {
        return Err(refusal(16, 0));
    }
    Ok(W::correct(&code, syndrome).map(|(a, b)| {
        let p = (a & b).count_ones() % 4;
        Pauli { p, a, b }
    }))
}

/// The walk for the corrections of a code, which serves for any number of syndromes.
pub fn walk<W: Walk>(code: &Code) -> W {
    W::of(Words::of_syndromes(code), radius(code))
}

/// No second word is 1, so no string is passed over.
pub fn correction(walk: &impl Walk, syndrome: u32) -> Option<Masks> {
    walk.earliest(syndrome, 1)
}

/// The first character is the lowest bit.
pub fn read_syndrome(r: usize, characters: &[u8]) -> Option<u32> {
    if characters.len() != r {
        return None;
    }
    let mut bits = characters.iter().rev();
    bits.try_fold(0, |mask, byte| match byte {
        b'0' => Some(2 * mask),
        b'1' => Some(2 * mask + 1),
        _ => None,
    })
}
