// Changes of images and lists: one word, a record, a length.
use crate::machine::{List, Rng};

// One word changed: by one, to a word that matters, to another word of the image, or in one bit.
pub fn one_word(rng: &mut Rng, image: &mut [u32]) {
    if image.is_empty() {
        return;
    }
    let at = if rng.chance(10) { rng.below(image.len().min(10)) } else { rng.below(image.len()) };
    let other = image[rng.below(image.len())];
    let word = &mut image[at];
    *word = match rng.below(6) {
        0 => word.wrapping_add(1),
        1 => word.wrapping_sub(1),
        2 => rng.word(),
        3 => *word ^ 1 << rng.below(32),
        4 => rng.below(6) as u32,
        _ => other,
    };
}

// An image cut short, made longer, emptied, or with several words changed.
pub fn damage(rng: &mut Rng, image: &mut Vec<u32>) {
    match rng.below(8) {
        0 => image.truncate(rng.below(image.len() + 1)),
        1 => image.truncate(rng.below(12)),
        2 => image.push(rng.word()),
        3 => image.clear(),
        4 => {
            // A total that is right for a cut image.
            image.truncate(rng.below(image.len() + 1));
            if image.len() > 1 {
                image[1] = image.len() as u32;
            }
        }
        _ => {
            for _ in 0..rng.from_to(1, 6) {
                one_word(rng, image);
            }
        }
    }
}

// A change of a list that leaves its image whole.
pub fn relisted(rng: &mut Rng, list: &mut List) {
    let (p, l, t) = (rng.below(list.pairs.len()), rng.below(list.links.len()), rng.below(list.paths.len()));
    let pairs = list.pairs.len();
    let any = list.pairs[rng.below(pairs)];
    let pair = &mut list.pairs[p];
    match rng.below(16) {
        0 if t + 1 < list.paths.len() => list.paths.swap(t, t + 1),
        1 if pair[5] > 0 => pair[5] -= 1,
        2 => pair[5] += 1,
        3 => pair[0] = any[0],
        4 => pair[1] = any[1],
        5 if pair[3] > 0 => pair[3] -= 1,
        6 if pair[3] > 0 => {
            pair[2] += 1;
            pair[3] -= 1;
        }
        7 if !list.links.is_empty() => list.links[l][rng.below(2)] = rng.below(16) as u32,
        8 if !list.paths.is_empty() => list.paths[t][4] = rng.below(pairs) as u32,
        9 | 13 | 14 if !list.paths.is_empty() => list.paths[t] = [list.paths[t][0], list.paths[t][1], 0, 0, 0, 1],
        10 if !list.paths.is_empty() => {
            let side = 2 * rng.below(2);
            let length = list.paths[t][side].clamp(1, 32);
            list.paths[t][side + 1] ^= 1 << rng.below(length as usize);
        }
        11 if !list.paths.is_empty() => {
            let side = 2 * rng.below(2);
            list.paths[t][side] = list.paths[t][side].wrapping_add(1);
        }
        12 if !list.paths.is_empty() => {
            let [_, _, length, choices, target, _] = list.paths[t];
            list.paths[t] = [length, choices, length, choices, target, 0];
        }
        _ if l + 1 < list.links.len() => list.links.swap(l, l + 1),
        _ => pair[4] += 1,
    }
}
