//! Table images made smaller: rows left out, with the numbers that name what followed them; fields towards 0; and of an image whose
//! front or contents are damaged, bytes.

use super::Kind;
use crate::bytes::{number, spell, Writer};
use crate::table::{layout, ROW_BYTES};

/// The widths of the fields of each kind's rows.
const WIDTHS: [&[usize]; 4] = [&[1, 1], &[1, 1, 4, 2, 2, 2, 4], &[1, 1, 2, 4, 2, 2, 4], &[1, 1, 2, 4, 2, 2, 4]];

pub const GROUPS: usize = 0;
pub const CONNECTIONS: usize = 1;
pub const ROUTES: usize = 2;

type Rows = [Vec<Vec<u8>>; 4];

#[derive(Clone)]
pub enum Image {
    /// Rows of bytes, under contents that fit them, and bytes after the last.
    Rows(Rows, Vec<u8>),
    Damaged(Vec<u8>),
}

fn write(rows: &Rows) -> Vec<u8> {
    let counts = [0, 1, 2, 3].map(|kind| rows[kind].len());
    let mut image = Writer::default().number(1u8, 2).number(4u8, 2);
    for (kind, &(start, rows)) in (1u16..).zip(&layout(counts)) {
        image = image.number(kind, 2).number(rows as u64, 2).number(start as u64, 4);
    }
    rows.iter().flatten().fold(image, |image, row| image.bytes(row)).0
}

impl Image {
    pub fn read(image: &[u8]) -> Self {
        let counts = [0, 1, 2, 3].map(|kind| number(image, 6 + 8 * kind, 2) as usize);
        let mut bodies = layout(counts).into_iter().zip(ROW_BYTES);
        let body = |((start, rows), width): ((usize, usize), usize)| {
            let row = |row| image.get(start + row * width..start + (row + 1) * width).map(<[u8]>::to_vec);
            (0..rows).map(row).collect::<Option<Vec<_>>>()
        };
        let mut next = || bodies.next().and_then(body);
        let damaged = || Image::Damaged(image.to_vec());
        match (next(), next(), next(), next()) {
            (Some(groups), Some(connections), Some(routes), Some(destinations)) => {
                let rows = [groups, connections, routes, destinations];
                image.strip_prefix(&write(&rows)[..]).map_or_else(damaged, |rest| Image::Rows(rows, rest.to_vec()))
            }
            _ => damaged(),
        }
    }

    pub fn bytes(&self) -> Vec<u8> {
        match self {
            Image::Rows(rows, rest) => [&write(rows)[..], rest].concat(),
            Image::Damaged(bytes) => bytes.clone(),
        }
    }

    /// How many rows there are of each kind.
    pub fn counts(&self) -> [usize; 4] {
        match self {
            Image::Rows(rows, _) => [0, 1, 2, 3].map(|kind| rows[kind].len()),
            Image::Damaged(_) => [0; 4],
        }
    }

    /// Leaves out a row and all rows that name it; later rows of its kind move up, and so do the numbers that name them.
    pub fn leave_out(&mut self, kind: usize, number: usize) {
        if let Image::Rows(rows, _) = self {
            leave_out(rows, kind, number);
        }
    }

    /// The numbers of the rows that are left out with a row: a group's connections, from the last on.
    pub fn members(&self, group: usize) -> Vec<usize> {
        match self {
            Image::Rows(rows, _) => naming(&rows[CONNECTIONS], group),
            Image::Damaged(_) => vec![],
        }
    }

    pub fn stretches(&mut self, each: &mut dyn FnMut(&mut Vec<u8>, Kind)) {
        let (Image::Damaged(bytes) | Image::Rows(_, bytes)) = self;
        each(bytes, Kind::Free);
    }

    pub fn numbers(&mut self, each: &mut dyn FnMut(u64) -> u64) {
        if let Image::Rows(rows, _) = self {
            for (rows, widths) in rows.iter_mut().zip(WIDTHS) {
                rows.iter_mut().for_each(|row| fields(row, widths, each));
            }
        }
    }
}

fn fields(row: &mut [u8], widths: &[usize], each: &mut dyn FnMut(u64) -> u64) {
    let mut at = 0;
    for &width in widths {
        let value = each(number(row, at, width));
        row[at..at + width].copy_from_slice(&spell(value, width));
        at += width;
    }
}

/// The rows whose first byte, a group or connection, is this; the last first.
fn naming(rows: &[Vec<u8>], number: usize) -> Vec<usize> {
    (0..rows.len()).rev().filter(|&row| usize::from(rows[row][0]) == number).collect()
}

fn leave_out(rows: &mut Rows, kind: usize, number: usize) {
    let owned: &[usize] = match kind {
        GROUPS => &[1],
        CONNECTIONS => &[2, 3],
        _ => &[],
    };
    for &other in owned {
        naming(&rows[other], number).into_iter().for_each(|row| leave_out(rows, other, row));
        rows[other].iter_mut().filter(|row| usize::from(row[0]) > number).for_each(|row| row[0] -= 1);
    }
    rows[kind].remove(number);
}

#[cfg(test)]
mod tests {
    use super::*;
    use crate::generate::image::image;
    use crate::random::Random;
    use crate::table::{check, whole_image};

    #[test]
    fn every_image_comes_back() {
        let random = &mut Random::new(1);
        for _ in 0..500 {
            let image = image(random);
            assert_eq!(Image::read(&image).bytes(), image);
        }
    }

    #[test]
    fn an_accepted_image_stays_accepted() {
        let random = &mut Random::new(1);
        let mut tried = 0;
        while tried < 300 {
            let bytes = image(random);
            let (mut less, kind) = (Image::read(&bytes), random.below(4));
            if check(&bytes).is_ok() && less.counts()[kind] > 0 {
                let before = less.counts();
                less.leave_out(kind, random.below(before[kind]));
                assert!(check(&less.bytes()).is_ok());
                assert_eq!(less.counts()[kind], before[kind] - 1);
                tried += 1;
            }
        }
    }

    #[test]
    fn a_connection_goes_with_its_rows() {
        let mut image = Image::read(&whole_image());
        image.leave_out(CONNECTIONS, 0);
        assert_eq!(image.counts(), [1, 0, 0, 0]);
    }
}
