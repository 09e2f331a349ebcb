//! Requests to the C driver made smaller.

use super::image::Image;
use super::{Case, Kind};
use crate::bytes::Reader;
use crate::exchange::{framing, table_check, walk, FRAMING, TABLE_CHECK};
use std::ops::Range;

#[derive(Clone)]
pub enum Request {
    TableCheck(Image),
    /// Id, room and fill byte of the out buffer, payload.
    Framing([u64; 3], Vec<u8>),
    /// Image; connection, switches, place; datagram.
    Walk(Image, [u64; 3], Vec<u8>),
}

impl Request {
    pub fn read(request: &[u8]) -> Self {
        let mut fields = Reader::new(request, 1);
        match request[0] {
            TABLE_CHECK => Request::TableCheck(Image::read(fields.rest())),
            FRAMING => {
                let numbers = [4, 4, 1].map(|width| fields.number(width));
                Request::Framing(numbers, fields.rest().to_vec())
            }
            _ => {
                let numbers = [8, 4, 8].map(|width| fields.number(width));
                let length = fields.number(4) as usize;
                let image = Image::read(fields.bytes(length));
                Request::Walk(image, numbers, fields.rest().to_vec())
            }
        }
    }

    pub fn bytes(&self) -> Vec<u8> {
        match self {
            Request::TableCheck(image) => table_check(&image.bytes()),
            Request::Framing([id, room, fill], payload) => framing(*id as u32, *room as usize, *fill as u8, payload),
            Request::Walk(image, [connection, switches, place], datagram) => {
                walk(&image.bytes(), *connection, *switches as u32, datagram, *place)
            }
        }
    }

    pub fn image(&self) -> Option<&Image> {
        match self {
            Request::TableCheck(image) | Request::Walk(image, _, _) => Some(image),
            Request::Framing(..) => None,
        }
    }

    fn image_mut(&mut self) -> Option<&mut Image> {
        match self {
            Request::TableCheck(image) | Request::Walk(image, _, _) => Some(image),
            Request::Framing(..) => None,
        }
    }
}

/// A walk without the bytes of its datagram that are passed; nothing where there are none.
fn leave_out_front(mut request: Request) -> Option<Request> {
    match &mut request {
        Request::Walk(_, [_, _, place], datagram) if *place > 0 && *place <= datagram.len() as u64 => {
            datagram.drain(..*place as usize);
            *place = 0;
            Some(request)
        }
        _ => None,
    }
}

/// The parts are the rows of the image, and the front of a datagram.
impl Case for Request {
    fn parts(&self) -> Vec<usize> {
        self.image().map_or(vec![], |image| [&image.counts()[..], &[1]].concat())
    }

    fn without(&self, kind: usize, parts: Range<usize>) -> Option<Self> {
        let mut less = self.clone();
        if kind == 4 {
            return leave_out_front(less);
        }
        let image = less.image_mut()?;
        parts.rev().for_each(|row| image.leave_out(kind, row));
        Some(less)
    }

    fn stretches(&mut self, each: &mut dyn FnMut(&mut Vec<u8>, Kind)) {
        self.image_mut().into_iter().for_each(|image| image.stretches(each));
        if let Request::Framing(_, bytes) | Request::Walk(_, _, bytes) = self {
            each(bytes, Kind::Free);
        }
    }

    fn numbers(&mut self, each: &mut dyn FnMut(u64) -> u64) {
        self.image_mut().into_iter().for_each(|image| image.numbers(each));
        if let Request::Framing(numbers, _) | Request::Walk(_, numbers, _) = self {
            *numbers = numbers.map(each);
        }
    }
}

#[cfg(test)]
mod tests {
    use super::super::{shrink, Bound};
    use super::*;
    use crate::exchange::expected;
    use crate::fault::{self, Fault};
    use crate::generate::datagram::walk_request;
    use crate::generate::framing::framing;
    use crate::generate::image::image;
    use crate::random::Random;

    fn differs(fault: Fault, request: &[u8]) -> bool {
        fault::with(fault, || expected(request)) != expected(request)
    }

    /// The length of a request that shows a fault, made smaller.
    fn length(fault: Fault, make: fn(&mut Random) -> Vec<u8>) -> usize {
        let random = &mut Random::new(1);
        let request = std::iter::repeat_with(|| make(random)).find(|request| differs(fault, request)).unwrap();
        assert_eq!(Request::read(&request).bytes(), request);
        let mut ask = |all: &[Request]| all.iter().position(|request| differs(fault, &request.bytes()));
        let (least, _) = shrink(Request::read(&request), Bound { calls: 300, cases: 200 }, &mut ask);
        assert!(differs(fault, &least.bytes()));
        least.bytes().len()
    }

    #[test]
    fn requests_become_small() {
        let any_image = |random: &mut Random| table_check(&image(random));
        // a group and a connection; a byte too many after no row at all; a group, a connection and three routes
        assert_eq!(length(Fault::SendSizeSeven, any_image), 1 + 36 + 2 + 16);
        assert_eq!(length(Fault::LongerIsFine, any_image), 1 + 36 + 1);
        assert_eq!(length(Fault::NeighbourOnly, any_image), 1 + 36 + 2 + 16 + 3 * 16);
        // an out buffer that holds more than an empty frame; a header whose payload is missing
        assert_eq!(length(Fault::RestCleared, framing), 1 + 9);
        assert_eq!(length(Fault::CutLast, walk_request), 1 + 24 + 36 + 2 + 16 + 8);
    }
}
