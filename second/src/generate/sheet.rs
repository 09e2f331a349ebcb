//! Commissioning sheets: many switches on few connections and numbers, so that later ones override earlier ones, and some that are refused.

use crate::random::Random;

/// The bytes of a switch; one of `rows` connections as a rule.
fn switch(random: &mut Random, rows: usize, numbers: usize) -> [u8; 3] {
    let connection = if random.one_in(8) { random.edge(rows.min(255), 255) } else { random.below(rows) };
    let number = if random.one_in(8) { random.edge(31, 255) } else { random.below(numbers) };
    [connection as u8, number as u8, random.below(2) as u8]
}

/// A sheet for a table with so many connections; now and then one that does not fit.
pub fn sheet(random: &mut Random, rows: usize) -> Vec<u8> {
    let (count, numbers) = (*random.pick(&[0, 1, 2, 10, 60, 300]), *random.pick(&[1, 4, 32]));
    let mut sheet: Vec<u8> = (0..count).flat_map(|_| switch(random, rows, numbers)).collect();
    if random.one_in(8) && count > 0 {
        match random.below(2) {
            0 => sheet.truncate(sheet.len() - random.between(1, 2)),
            _ => sheet[3 * random.below(count) + 2] = random.between(2, 255) as u8,
        }
    }
    sheet
}
