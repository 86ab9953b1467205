//! Codes that several parts have cases of.

use crate::codes::{any_code, claiming, completed, disguised};
use crate::codes::{of_each_weight, with_distance, with_longer_distances};
use crate::random::Random;
use crate::sheet::Sheet;
use crate::{lists, published};
use std::sync::OnceLock;

pub struct Codes {
    /// those from the literature; each is admitted
    pub published: Vec<Sheet>,
    /// codes of every n, with few generators and with many; each is admitted
    pub generated: Vec<Sheet>,
    /// codes of every size, each with its distance and then with longer ones, which are refuted
    pub with_longer_distances: Vec<Vec<Sheet>>,
}

impl Codes {
    /// They are made once, and are the same each time.
    pub fn made() -> &'static Codes {
        static CODES: OnceLock<Codes> = OnceLock::new();
        CODES.get_or_init(|| {
            let mut random = Random(0x5eed_000c_1996);
            let published = published::all();
            Codes {
                generated: generated(&mut random),
                with_longer_distances: longer(&mut random, &published),
                published,
            }
        })
    }
}

/// Some have their logicals made anew.
fn generated(random: &mut Random) -> Vec<Sheet> {
    let mut codes = Vec::new();
    for n in 2..=24 {
        let some = 1 + random.index(n - 1);
        let counts = [
            Some(1),
            Some(2),
            Some(some),
            n.checked_sub(3),
            n.checked_sub(2),
            Some(n - 1),
        ];
        for r in counts.into_iter().flatten().filter(|r| (1..n).contains(r)) {
            let mut code = any_code(random, n, r);
            if random.below(3) == 0 {
                code = completed(code.generators);
            }
            codes.extend(with_distance(random, &code));
        }
    }
    codes
}

/// More of those with few pairs, whose distances are longer, and of one pair and many qubits, which have the longest;
/// and published codes in other clothes.
fn longer(random: &mut Random, published: &[Sheet]) -> Vec<Vec<Sheet>> {
    let mut codes = Vec::new();
    for n in 2..=24 {
        codes.extend((1..n).map(|r| any_code(random, n, r)));
    }
    for n in (7..=16).flat_map(|n| [n; 8]) {
        let r = n - 1 - random.index(2);
        codes.push(lists::dense_code(random, n, r));
    }
    for sheet in published {
        codes.extend([(); 3].map(|()| disguised(random, sheet)));
    }
    let mut sheets: Vec<Vec<Sheet>> = codes
        .iter()
        .map(|code| with_longer_distances(random, code))
        .collect();
    for n in [22, 23, 23, 24, 24, 24] {
        let code = lists::dense_code(random, n, n - 1);
        let claims = of_each_weight(&code).into_iter();
        sheets.push(claims.map(|claim| claiming(&code, claim)).collect());
    }
    sheets.retain(|sheets| !sheets.is_empty());
    sheets
}
