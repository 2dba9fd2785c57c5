//! NULL with length 0: an empty file or list where one may be empty, a buffer that is too small
//! elsewhere.

use harness::layout::{self, ASSIGNMENT, KEPT, MARKS, TABLES, TALLIES, TERM_TABLE};
use harness::planner::{
    self, raw, squeeze, write_opb, Counted, Figures, Flipped, Loaded, Searched, Squeezed, Written,
};
use harness::searching::refused;
use reference::figures::{Trial, Xorwow};
use reference::making::{example_plan, settings};
use reference::squeeze::LIST;
use std::ptr::{null, null_mut};

/// Buffers of the right sizes; those asked for are NULL with length 0.
struct Buffers {
    bytes: [Vec<u8>; 9],
    absent: usize,
}

/// Tables, terms, assignment, tallies, then the work buffers.
const SIZES: [usize; 9] = [
    TABLES, TERM_TABLE, ASSIGNMENT, TALLIES, TABLES, TERM_TABLE, ASSIGNMENT, KEPT, MARKS,
];

impl Buffers {
    /// The example's plan, with one buffer absent; none with a place past the last.
    fn new(absent: usize) -> Buffers {
        let mut bytes = SIZES.map(|size| vec![0; size]);
        (bytes[0], bytes[1]) = layout::tables(&example_plan());
        Buffers { bytes, absent }
    }

    fn lend(&mut self, place: usize) -> (*mut u8, usize) {
        match place == self.absent {
            true => (null_mut(), 0),
            false => (self.bytes[place].as_mut_ptr(), self.bytes[place].len()),
        }
    }

    fn load(&mut self, file: &[u8]) -> Loaded {
        let ((tables, a), (terms, b)) = (self.lend(0), self.lend(1));
        unsafe { raw::planner_load(file.as_ptr(), file.len(), tables, a, terms, b) }
    }

    fn open(&mut self) -> u32 {
        let [(tables, a), (terms, b), (bits, c), (tallies, d)] =
            [0, 1, 2, 3].map(|place| self.lend(place));
        unsafe { raw::planner_open(tables, a, terms, b, bits, c, tallies, d) }
    }

    fn flip(&mut self) -> Flipped {
        let [(tables, a), (terms, b), (bits, c), (tallies, d)] =
            [0, 1, 2, 3].map(|place| self.lend(place));
        unsafe { raw::planner_flip(tables, a, terms, b, bits, c, tallies, d, 1) }
    }

    fn counts(&mut self) -> Counted {
        let [(tables, a), (terms, b), (bits, c), (tallies, d)] =
            [0, 1, 2, 3].map(|place| self.lend(place));
        unsafe { raw::planner_counts(tables, a, terms, b, bits, c, tallies, d, 1) }
    }

    fn search(&mut self, numbers: *const u8, length: usize) -> Searched {
        let [(tables, a), (terms, b), (bits, c)] = [0, 1, 2].map(|place| self.lend(place));
        let [(v, d), (w, e), (x, f), (y, g), (z, h)] =
            [4, 5, 6, 7, 8].map(|place| self.lend(place));
        unsafe {
            raw::planner_search(
                tables, a, terms, b, numbers, length, 500, 1, 1, 1, 0, 0, bits, c, v, d, w, e, x,
                f, y, g, z, h,
            )
        }
    }
}

const NONE_ABSENT: usize = SIZES.len();

#[test]
fn no_file_is_an_empty_file() {
    let mut buffers = Buffers::new(NONE_ABSENT);
    let before = buffers.bytes.clone();
    let [(tables, a), (terms, b)] = [0, 1].map(|place| buffers.lend(place));
    let answer = unsafe { raw::planner_load(null(), 0, tables, a, terms, b) };
    let wanted = Loaded {
        refusal: 1,
        offset: 0,
    };
    assert_eq!(answer, wanted);
    assert!(buffers.bytes == before);
}

#[test]
fn no_list_is_an_empty_list() {
    let mut buffers = Buffers::new(NONE_ABSENT);
    let answer = buffers.search(null(), 0);
    assert_eq!((answer.refusal, answer.ending, answer.used), (0, 5, 0));
}

#[test]
fn no_buffer_is_one_too_small() {
    let file = reference::file::write(&example_plan());
    let numbers = [0; 40];
    for absent in 0..=NONE_ABSENT {
        let mut buffers = Buffers::new(absent);
        let refusal = |places: &[usize]| if places.contains(&absent) { 21 } else { 0 };
        let before = buffers.bytes.clone();
        let searched = buffers.search(numbers.as_ptr(), numbers.len());
        if refusal(&[0, 1, 2, 4, 5, 6, 7, 8]) == 21 {
            assert_eq!(searched, refused(21), "buffer {absent}");
            assert!(buffers.bytes == before);
        } else {
            assert_eq!(searched.refusal, 0);
        }
        let four = refusal(&[0, 1, 2, 3]);
        assert_eq!(buffers.open(), four, "buffer {absent}");
        assert_eq!(buffers.counts().refusal, four, "buffer {absent}");
        let flipped = buffers.flip();
        assert_eq!(flipped.refusal, four, "buffer {absent}");
        assert_eq!(flipped.rules, (four == 0) as u32, "buffer {absent}");
        let loaded = buffers.load(&file);
        assert_eq!(loaded.refusal, refusal(&[0, 1]), "buffer {absent}");
        assert_eq!(loaded.offset, 0);
    }
}

#[test]
fn no_room_for_numbers() {
    let (tables, terms) = layout::tables(&example_plan());
    let state = Xorwow {
        words: [1; 5],
        counter: 0,
    };
    let trial = Trial {
        state,
        runs: 1,
        count: 1,
    };
    let mut bytes = SIZES.map(|size| vec![7; size]);
    let before = bytes.clone();
    let [_, _, assignment, _, work @ ..] = bytes.each_mut().map(Vec::as_mut_slice);
    let settings = settings(500, 1, 1, 1);
    let none = &mut [];
    let reported = planner::runs(&tables, &terms, &trial, &settings, none, assignment, work);
    assert_eq!(reported, Figures::refused(21));
    assert!(bytes == before);
}

#[test]
fn no_file_and_no_list_to_squeeze() {
    let refused = |refusal| Squeezed {
        refusal,
        offset: 0,
        length: 0,
        constant: 0,
    };
    let mut list = vec![9; LIST];
    let answer = unsafe { raw::planner_squeeze(null_mut(), 0, list.as_mut_ptr(), LIST) };
    assert_eq!(answer, refused(1));
    assert_eq!(list, vec![9; LIST]);
    let mut file = reference::file::write(&example_plan());
    let before = file.clone();
    let answer = unsafe { raw::planner_squeeze(file.as_mut_ptr(), file.len(), null_mut(), 0) };
    assert_eq!(answer, refused(21));
    assert_eq!(file, before);
    assert_eq!(squeeze(&mut [], &mut []), refused(21));
}

#[test]
fn no_text_and_no_tables_to_read_it_into() {
    let text = b"* #variable= 1 #constraint= 0\n";
    for absent in 0..=NONE_ABSENT {
        let mut buffers = Buffers::new(absent);
        let before = buffers.bytes.clone();
        let [(tables, a), (terms, b)] = [0, 1].map(|place| buffers.lend(place));
        let refusal = if absent < 2 { 21 } else { 31 };
        let refused = |refusal| Loaded { refusal, offset: 0 };
        let answer = unsafe { raw::planner_read_opb(null(), 0, tables, a, terms, b) };
        assert_eq!(answer, refused(refusal), "no text, buffer {absent}");
        assert!(buffers.bytes == before);
        if absent < 2 {
            let (bytes, length) = (text.as_ptr(), text.len());
            let answer = unsafe { raw::planner_read_opb(bytes, length, tables, a, terms, b) };
            assert_eq!(answer, refused(21), "buffer {absent}");
            assert!(buffers.bytes == before);
        }
    }
}

#[test]
fn no_tables_and_no_room_for_a_text() {
    let (tables, terms) = layout::tables(&example_plan());
    let refused = |refusal, length| Written { refusal, length };
    assert_eq!(write_opb(&[], &terms, &mut []), refused(21, 0));
    assert_eq!(write_opb(&tables, &[], &mut []), refused(21, 0));
    let answer = unsafe {
        let (a, b) = (tables.as_ptr(), terms.as_ptr());
        raw::planner_write_opb(a, tables.len(), b, terms.len(), null_mut(), 0)
    };
    let length = reference::opb_write::write(&example_plan()).len();
    assert_eq!(answer, refused(33, length));
}
