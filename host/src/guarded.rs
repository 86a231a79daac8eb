//! The archive, with every slice beside memory that must not be touched.
//!
//! Each question is asked twice. The first time every slice ends where forbidden pages begin, the second time every
//! slice begins where forbidden pages end. An access outside a slice, by one number or more, then ends the program by a
//! signal. Slices that are lent for reading must hold the same afterwards, and both replies must be the same.

use std::ptr;

use flumedrac::ffi::{Answer, Built, Changed, Cursor, Event, Number, Searched, Volume, Written};
use flumedrac::Slices;

use crate::library::{Archive, Kind, Library, Outputs, Test};

extern "C" {
    fn mmap(at: *mut u8, length: usize, allowed: i32, how: i32, file: i32, offset: i64) -> *mut u8;
    fn mprotect(at: *mut u8, length: usize, allowed: i32) -> i32;
}

/// What mmap and mprotect allow, and that memory is this program's own, as Linux numbers them.
const NOTHING: i32 = 0;
const READ_WRITE: i32 = 3;
const OWN: i32 = 0x22;

/// The largest page that any Linux has.
const PAGE: usize = 65_536;
/// The room for a slice, between a forbidden page and a forbidden page.
const ROOM: usize = 64 * PAGE;
/// A product has two listings and three slices to write.
const AREAS: usize = 9;

/// Where in its area a slice lies.
#[derive(Clone, Copy, Debug)]
enum Place {
    End,
    Front,
}

/// Areas of memory, each with a forbidden page before it and behind it.
pub struct Guarded {
    areas: [*mut u8; AREAS],
}

impl Default for Guarded {
    fn default() -> Self {
        let area = |_| {
            // Safety: new memory, which belongs to nobody else.
            unsafe {
                let start = mmap(ptr::null_mut(), ROOM + 2 * PAGE, NOTHING, OWN, -1, 0);
                assert!(start as isize != -1, "there is no memory");
                assert_eq!(mprotect(start.add(PAGE), ROOM, READ_WRITE), 0);
                start.add(PAGE)
            }
        };
        Self { areas: [0; AREAS].map(area) }
    }
}

impl Guarded {
    /// A copy of numbers in an area. Each area has one copy at a time.
    fn put<T: Copy>(&self, area: usize, place: Place, numbers: &[T]) -> *mut T {
        let size = size_of_val(numbers);
        assert!(size <= ROOM, "a slice is too long to be guarded");
        let from = match place {
            Place::Front => 0,
            Place::End => ROOM - size,
        };
        let at = self.areas[area].wrapping_add(from).cast::<T>();
        // Safety: all of it lies between the forbidden pages, and the copy is as aligned as its numbers ask: the area's
        // front is that of a page, and its end minus whole numbers is aligned as well.
        unsafe { ptr::copy_nonoverlapping(numbers.as_ptr(), at, numbers.len()) };
        at
    }

    fn read<T: Copy>(&self, area: usize, place: Place, numbers: &[T]) -> &[T] {
        // Safety: the copy stays until the area is used again, for the next call.
        unsafe { std::slice::from_raw_parts(self.put(area, place, numbers), numbers.len()) }
    }

    #[allow(clippy::mut_from_ref)]
    fn lend<T: Copy>(&self, area: usize, place: Place, numbers: &[T]) -> &mut [T] {
        // Safety: as above, and no other area has it.
        unsafe { std::slice::from_raw_parts_mut(self.put(area, place, numbers), numbers.len()) }
    }

    /// What is answered at either place of a listing that is written, with the slices for it in the last three areas;
    /// they get what stands in the copies afterwards.
    fn built(&self, outputs: Outputs<'_>, build: impl Fn(Place, Outputs<'_>) -> Built) -> Built {
        let (built, new) = both(|at| {
            let mut room = [0, 1, 2].map(|i| self.lend(AREAS - 3 + i, at, outputs[i]));
            let built = build(at, room.each_mut().map(|slice| &mut **slice));
            (built, room.map(|slice| slice.to_vec()))
        });
        outputs.into_iter().zip(new).for_each(|(slice, new)| slice.copy_from_slice(&new));
        built
    }

    /// What a search answers at either place, with its table and its orientations in areas behind those of a listing
    /// and a flag; they get what stands in the copies afterwards.
    fn searched<A: PartialEq>(
        &self,
        table: &mut [u16],
        orientations: &mut [u8],
        search: impl Fn(Place, &mut [u16], &mut [u8]) -> A,
    ) -> A {
        let (searched, new_table, new_orientations) = both(|at| {
            let (table, orientations) = (self.lend(4, at, table), self.lend(5, at, orientations));
            let searched = search(at, table, orientations);
            (searched, table.to_vec(), orientations.to_vec())
        });
        table.copy_from_slice(&new_table);
        orientations.copy_from_slice(&new_orientations);
        searched
    }

    /// A listing, in three areas from the first one named.
    fn listing(&self, first: usize, place: Place, l: Slices<'_>) -> Slices<'_> {
        Slices {
            counts: self.read(first, place, l.counts),
            ends: self.read(first + 1, place, l.ends),
            inc: self.read(first + 2, place, l.inc),
        }
    }
}

/// What is answered at either place, which must be the same.
fn both<A: PartialEq>(ask: impl Fn(Place) -> A) -> A {
    let answer = ask(Place::End);
    assert!(answer == ask(Place::Front), "the answer depends on where the slices lie");
    answer
}

/// What was lent for reading must be as it was.
fn unchanged<T: PartialEq>(after: T, before: T) {
    assert!(after == before, "a slice that was lent for reading was written");
}

impl Library for Guarded {
    fn rank(&self, counts: &[u16]) -> Number {
        both(|at| Archive.rank(self.read(0, at, counts)))
    }

    fn el_count(&self, counts: &[u16], rank: usize) -> Number {
        both(|at| Archive.el_count(self.read(0, at, counts), rank))
    }

    fn vertex_count(&self, counts: &[u16]) -> Number {
        both(|at| Archive.vertex_count(self.read(0, at, counts)))
    }

    fn facet_count(&self, counts: &[u16]) -> Number {
        both(|at| Archive.facet_count(self.read(0, at, counts)))
    }

    fn class(&self, no: u16) -> u16 {
        Archive.class(no)
    }

    fn test(&self, test: Test, l: Slices<'_>) -> Answer {
        both(|at| {
            let lent = self.listing(0, at, l);
            let answer = Archive.test(test, lent);
            unchanged(lent, l);
            answer
        })
    }

    fn change(&self, l: Slices<'_>, flag: &[u16], r: u16) -> Changed {
        both(|at| {
            let lent = (self.listing(0, at, l), self.read(3, at, flag));
            let changed = Archive.change(lent.0, lent.1, r);
            unchanged(lent, (l, flag));
            changed
        })
    }

    fn search(&self, l: Slices<'_>, first: &[u16], mask: u16, table: &mut [u16], orientations: &mut [u8]) -> Searched {
        self.searched(table, orientations, |at, table, orientations| {
            let lent = (self.listing(0, at, l), self.read(3, at, first));
            let searched = Archive.search(lent.0, lent.1, mask, table, orientations);
            unchanged(lent, (l, first));
            searched
        })
    }

    fn one_body(&self, l: Slices<'_>, table: &mut [u16], orientations: &mut [u8]) -> Searched {
        self.searched(table, orientations, |at, table, orientations| {
            let lent = self.listing(0, at, l);
            let searched = Archive.one_body(lent, table, orientations);
            unchanged(lent, l);
            searched
        })
    }

    fn six_volume(
        &self,
        l: Slices<'_>,
        first: &[u16],
        coordinates: &[f64],
        table: &mut [u16],
        orientations: &mut [u8],
    ) -> Volume {
        // Bits are compared, not numbers: a zero has two signs, and a NaN is not equal to itself.
        let bits = |numbers: &[f64]| -> Vec<u64> { numbers.iter().map(|x| x.to_bits()).collect() };
        let (no, six) = self.searched(table, orientations, |at, table, orientations| {
            let lent = (self.listing(0, at, l), self.read(3, at, first), self.read(6, at, coordinates));
            let volume = Archive.six_volume(lent.0, lent.1, lent.2, table, orientations);
            unchanged((lent.0, lent.1, bits(lent.2)), (l, first, bits(coordinates)));
            (volume.no, volume.six.to_bits())
        });
        Volume { no, six: f64::from_bits(six) }
    }

    fn sign(&self, orientation: u8) -> f64 {
        Archive.sign(orientation)
    }

    fn next_event(&self, cursor: &mut Cursor, count: u16, place: u16) -> Event {
        let (event, new) = both(|at| {
            let cursor = &mut self.lend(0, at, &[*cursor])[0];
            let event = Archive.next_event(cursor, count, place);
            (event, *cursor)
        });
        *cursor = new;
        event
    }

    fn product(&self, kind: Kind, p: Slices<'_>, q: Slices<'_>, outputs: Outputs<'_>) -> Built {
        self.built(outputs, |at, outputs| {
            let lent = (self.listing(0, at, p), self.listing(3, at, q));
            let built = Archive.product(kind, lent.0, lent.1, outputs);
            unchanged(lent, (p, q));
            built
        })
    }

    fn dual(&self, l: Slices<'_>, outputs: Outputs<'_>) -> Built {
        self.built(outputs, |at, outputs| {
            let lent = self.listing(0, at, l);
            let built = Archive.dual(lent, outputs);
            unchanged(lent, l);
            built
        })
    }

    fn read_text(&self, text: &[u8], outputs: Outputs<'_>) -> Built {
        self.built(outputs, |at, outputs| {
            let lent = self.read(0, at, text);
            let built = Archive.read_text(lent, outputs);
            unchanged(lent, text);
            built
        })
    }

    fn check_text(&self, text: &[u8]) -> u16 {
        both(|at| {
            let lent = self.read(0, at, text);
            let no = Archive.check_text(lent);
            unchanged(lent, text);
            no
        })
    }

    fn write_text(&self, l: Slices<'_>, text: &mut [u8]) -> Written {
        let (written, new) = both(|at| {
            let lent = self.listing(0, at, l);
            let room = self.lend(3, at, text);
            let written = Archive.write_text(lent, room);
            unchanged(lent, l);
            (written, room.to_vec())
        });
        text.copy_from_slice(&new);
        written
    }
}

#[cfg(test)]
mod tests {
    use super::*;

    extern "C" {
        fn fork() -> i32;
        fn waitpid(child: i32, status: *mut i32, options: i32) -> i32;
        fn _exit(status: i32) -> !;
    }

    /// The signal that ends a process of its own in which something is done; 0 if none does.
    fn signal(mischief: impl FnOnce()) -> i32 {
        let mut status = 0;
        // Safety: the new process does what is tried, which takes no memory, and ends at once.
        unsafe {
            let child = fork();
            if child == 0 {
                mischief();
                _exit(0);
            }
            assert_eq!(waitpid(child, &mut status, 0), child);
        }
        status & 0x7f
    }

    /// One number before or behind a slice cannot be read or written; what is inside can.
    #[test]
    fn guards_hold() {
        const SEGV: i32 = 11;
        let guarded = Guarded::default();
        for length in [0, 1, 3, 40_000] {
            let numbers = vec![7u16; length];
            for (place, outside) in [(Place::End, length as isize), (Place::Front, -1)] {
                let at = guarded.lend(0, place, &numbers).as_mut_ptr().wrapping_offset(outside);
                assert_eq!(signal(|| unsafe { assert_ne!(at.read_volatile(), 0) }), SEGV);
                assert_eq!(signal(|| unsafe { at.write_volatile(1) }), SEGV);
                let lent = guarded.lend(0, place, &numbers).as_mut_ptr();
                let write_all = || (0..length).for_each(|i| unsafe { lent.add(i).write_volatile(1) });
                assert_eq!(signal(write_all), 0);
                assert_eq!(guarded.read(0, place, &numbers), numbers);
            }
        }
    }
}
