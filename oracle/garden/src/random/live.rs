//! Live intervals and first hints.
use super::Style;
use crate::convert::commit_hints;
use crate::intervals::{last_rows, read_values};
use crate::model::Function;
use crate::rng::Random;
use crate::rows::{rows, value_rows};

/// Later than need be: a little, to the function's end, or for ever.
fn lengthened(random: &mut Random, end: u32, rows: u32) -> u32 {
    match random.below(8) {
        0..=4 => end + random.from_to(1, 12),
        5..=6 => end.max(rows),
        _ => u32::MAX,
    }
}

/// The intervals of all values, as document 01's "Rows" has them; now and then with a start that is not the value's row.
pub fn intervals(random: &mut Random, style: &Style, f: &mut Function) {
    let at = value_rows(f);
    let mut is_param = vec![false; f.values.len()];
    f.live_blocks().flat_map(|(_, b)| &b.params).for_each(|&p| is_param[p as usize] = true);
    // a parameter that needs not be may be read all the same
    let also = is_param.iter().map(|&p| p && random.chance(style.long / 2)).collect();
    let read = read_values(f, also);
    let last = last_rows(f, &read, &at, style.loops);
    let rows = rows(f).len() as u32;
    for (v, value) in f.values.iter_mut().enumerate() {
        let row = at[v].unwrap_or(0);
        let must_end = !read[v] && is_param[v];
        let mut end = last[v];
        // such a parameter lasts one row more than its own
        end += (read[v] && end == row) as u32;
        if !must_end && random.chance(style.long) {
            end = lengthened(random, end, rows);
        }
        (value.start, value.end) = match end > row {
            true if random.chance(5) => (random.below(end), end),
            true => (row, end),
            // one that isn't read may end before its row too
            false if random.chance(10) => [random.below(row + 1); 2].into(),
            false => (end, end),
        };
    }
    any_for_unread(random, f);
}

/// An argument for a parameter that isn't read may be any value, defined or not.
fn any_for_unread(random: &mut Random, f: &mut Function) {
    let params: Vec<Vec<u32>> = f.blocks.iter().map(|b| b.params.clone()).collect();
    let count = f.values.len() as u32;
    for edge in f.blocks.iter_mut().filter_map(|b| b.term.as_mut()).flat_map(|t| &mut t.edges) {
        for (arg, &param) in edge.args.iter_mut().zip(&params[edge.to as usize]) {
            if !f.values[param as usize].is_read() && random.chance(20) {
                *arg = random.below(count);
            }
        }
    }
}

/// First hints: none, any, or those that the commit would give.
pub fn hints(random: &mut Random, f: &mut Function) {
    match random.below(3) {
        0 => {}
        1 => {
            let percent = random.one_of(&[10, 50, 100]);
            for value in &mut f.values {
                let most = random.one_of(&[4, 30, 64]);
                value.hint = random.chance(percent).then(|| random.below(most) as u8);
            }
        }
        _ => {
            for (value, hint) in commit_hints(f).into_iter().enumerate() {
                f.values[value].hint = hint;
            }
        }
    }
}
