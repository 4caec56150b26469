//! Shrinking: the smallest input found that still fails.

/// How many tries one shrinking may take.
const TRIES: usize = 20_000;

/// Takes pieces out and makes bytes smaller as long as the input still fails.
pub fn shrink(input: &[u8], mut fails: impl FnMut(&[u8]) -> bool) -> Vec<u8> {
    let mut best = input.to_vec();
    let mut tries = 0;
    let mut shorter = true;
    while shorter && tries < TRIES {
        let pieces = without_pieces(&mut best, &mut fails, &mut tries);
        let bytes = with_smaller_bytes(&mut best, &mut fails, &mut tries);
        shorter = pieces || bytes;
    }
    best
}

fn without_pieces(best: &mut Vec<u8>, fails: &mut impl FnMut(&[u8]) -> bool, tries: &mut usize) -> bool {
    let mut better = false;
    let mut width = best.len();
    while width > 0 {
        let mut at = 0;
        while at + width <= best.len() && *tries < TRIES {
            *tries += 1;
            let tried = [&best[..at], &best[at + width..]].concat();
            if fails(&tried) {
                *best = tried;
                better = true;
            } else {
                at += width;
            }
        }
        width /= 2;
    }
    better
}

fn with_smaller_bytes(best: &mut [u8], fails: &mut impl FnMut(&[u8]) -> bool, tries: &mut usize) -> bool {
    let mut better = false;
    for at in 0..best.len() {
        let old = best[at];
        for smaller in [0, old / 2, old.saturating_sub(1)] {
            if smaller >= best[at] || *tries >= TRIES {
                continue;
            }
            *tries += 1;
            let kept = std::mem::replace(&mut best[at], smaller);
            match fails(best) {
                true => better = true,
                false => best[at] = kept,
            }
        }
    }
    better
}
