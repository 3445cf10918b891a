//! Constants: such as decide something, and such as are alike but for their kind.
use crate::model::Constant;
use crate::rng::Random;

const INTS: [i64; 12] = [-2147483649, -2147483648, -2147483647, -1, 0, 1, 7, 2147483646, 2147483647, 2147483648, i64::MIN, i64::MAX];

pub fn int(random: &mut Random) -> i64 {
    match random.below(3) {
        0 => random.next() as i64,
        1 => random.below(40) as i64 - 20,
        _ => random.one_of(&INTS),
    }
}

pub fn any(random: &mut Random) -> Constant {
    match random.below(10) {
        0 => Constant::Undefined,
        1 => Constant::False,
        2 => Constant::True,
        3..=5 => Constant::Int(int(random)),
        6..=7 => Constant::Double(int(random) as u64),
        _ => Constant::Str(string(random)),
    }
}

fn string(random: &mut Random) -> u64 {
    if random.chance(80) { random.below(12) as u64 } else { int(random) as u64 }
}

/// So many keys, at most 4,095 apart: next to each other, with holes between, some of them equal.
pub fn keys(random: &mut Random, count: u32, large: bool) -> Vec<i64> {
    let reach = match random.below(6) {
        0..=1 => count - 1,
        2 => random.below(count),
        3 => count + 3,
        4 if large => 4095,
        _ => (count * 3).min(if large { 4095 } else { 60 }),
    }
    .min(4095);
    let first = match random.below(5) {
        0 => i64::MIN,
        1 => i64::MAX - reach as i64,
        2 => -(random.below(reach + 1) as i64),
        _ => int(random).clamp(i64::MIN, i64::MAX - reach as i64),
    };
    let in_order = random.chance(40) && reach + 1 >= count;
    let mut keys: Vec<i64> = (0..count).map(|k| first + if in_order { k } else { random.below(reach + 1) } as i64).collect();
    if count > 1 && random.chance(50) {
        // both ends of the reach are keys
        (keys[0], keys[count as usize - 1]) = (first + reach as i64, first);
    }
    keys
}
