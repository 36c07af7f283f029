//! The lists that a call is handed, with something on both sides that tells of any access outside:
//! bytes of a known pattern, or a page that must not be touched at all. The caller says afterwards
//! what each list must hold.

use std::alloc::{alloc, dealloc, handle_alloc_error, Layout};
use std::cell::RefCell;
use std::fmt::Debug;
use std::ptr;

/// Where a list is placed.
#[derive(Clone, Copy, Debug, PartialEq, Eq)]
pub enum Placement {
    /// Amid bytes of a known pattern.
    Amid,
    /// In a block of memory of its own, of just its size: for valgrind, which knows the blocks.
    Exact,
    /// It ends where a page begins that must not be touched.
    Behind,
    /// It begins where such a page ends.
    Before,
}

impl Placement {
    pub const ALL: [(&'static str, Placement); 4] =
        [("amid", Placement::Amid), ("exact", Placement::Exact), ("behind", Placement::Behind), ("before", Placement::Before)];
}

/// An element for which every pattern of bytes is a value.
pub trait Element: Copy + PartialEq + Debug {}
impl Element for u8 {}
impl Element for i16 {}
impl Element for u32 {}

const MARGIN: usize = 64;

/// What margins and unwritten lists hold: no two neighbours alike, and no run of small numbers.
fn pattern(at: usize) -> u8 {
    (at * 37 + 0xa5) as u8
}

/// A list's content before a call writes it.
pub fn unwritten(length: usize) -> Vec<u8> {
    (0..length).map(pattern).collect()
}

/// Lends lists, all placed alike.
pub struct Lender {
    placement: Placement,
    /// Rooms between pages, kept for the next list.
    rooms: RefCell<Vec<*mut u8>>,
}

/// Room for the longest list with its margins, in whole pages.
const PAGE: usize = 4096;
const ROOM: usize = 72 * PAGE;

impl Lender {
    pub fn new(placement: Placement) -> Lender {
        Lender { placement, rooms: RefCell::default() }
    }

    pub fn lend<T: Element>(&self, content: &[T]) -> Lent<'_, T> {
        let bytes = size_of_val(content);
        let in_pages = matches!(self.placement, Placement::Behind | Placement::Before);
        let margin = if self.placement == Placement::Exact { 0 } else { MARGIN };
        let (block, before, after) = match self.placement {
            Placement::Amid | Placement::Exact => (heap(margin + bytes + margin), margin, margin),
            Placement::Behind => (self.room().wrapping_add(ROOM - bytes - margin), margin, 0),
            Placement::Before => (self.room(), 0, margin),
        };
        assert!(!in_pages || bytes + margin <= ROOM, "a list longer than its room");
        for at in (0..before).chain(before + bytes..before + bytes + after) {
            // SAFETY: block has before + bytes + after bytes.
            unsafe { block.add(at).write(pattern(at)) };
        }
        // SAFETY: the list's bytes lie inside the block, aligned: blocks begin at multiples of 16
        // less a multiple of T's size.
        unsafe { ptr::copy_nonoverlapping(content.as_ptr(), block.add(before).cast(), content.len()) };
        Lent { lender: self, block, before, after, length: content.len(), list: block.wrapping_add(before).cast() }
    }

    /// A room with an untouchable page on both sides.
    fn room(&self) -> *mut u8 {
        self.rooms.borrow_mut().pop().unwrap_or_else(|| {
            // SAFETY: fresh pages of nobody else; the inner ones are opened.
            unsafe {
                let all = mmap(ptr::null_mut(), PAGE + ROOM + PAGE, PROT_NONE, MAP_PRIVATE | MAP_ANONYMOUS, -1, 0);
                assert!(all as isize != -1, "no memory for a room");
                let room = all.wrapping_add(PAGE);
                assert_eq!(mprotect(room, ROOM, PROT_READ | PROT_WRITE), 0, "a room could not be opened");
                room
            }
        })
    }
}

fn layout(bytes: usize) -> Layout {
    Layout::from_size_align(bytes, 16).expect("a small block")
}

fn heap(bytes: usize) -> *mut u8 {
    if bytes == 0 {
        return ptr::without_provenance_mut(16);
    }
    // SAFETY: the size is not 0.
    let block = unsafe { alloc(layout(bytes)) };
    if block.is_null() {
        handle_alloc_error(layout(bytes));
    }
    block
}

/// A list on loan.
pub struct Lent<'a, T: Element> {
    lender: &'a Lender,
    block: *mut u8,
    before: usize,
    after: usize,
    length: usize,
    list: *mut T,
}

impl<T: Element> Lent<'_, T> {
    pub fn list(&self) -> &[T] {
        // SAFETY: placed and filled by `lend`.
        unsafe { std::slice::from_raw_parts(self.list, self.length) }
    }

    pub fn list_mut(&mut self) -> &mut [T] {
        // SAFETY: as above, and borrowed by one only.
        unsafe { std::slice::from_raw_parts_mut(self.list, self.length) }
    }

    /// What is not as it must be, if anything is.
    pub fn wrong(&self, name: &str, expected: &[T]) -> Option<String> {
        let bytes = self.length * size_of::<T>();
        let margins = (0..self.before).chain(self.before + bytes..self.before + bytes + self.after);
        for at in margins {
            // SAFETY: inside the block.
            if unsafe { self.block.add(at).read() } != pattern(at) {
                return Some(format!("the list {name} was written outside, at byte {}", at as isize - self.before as isize));
            }
        }
        if self.list() != expected {
            let at = self.list().iter().zip(expected).position(|(x, y)| x != y);
            return Some(format!("the list {name} differs from entry {at:?} on: it holds {:?}, must hold {expected:?}", self.list()));
        }
        None
    }
}

impl<T: Element> Drop for Lent<'_, T> {
    fn drop(&mut self) {
        let bytes = self.before + self.length * size_of::<T>() + self.after;
        match self.lender.placement {
            // SAFETY: the block came from `heap` with this size.
            Placement::Amid | Placement::Exact if bytes > 0 => unsafe { dealloc(self.block, layout(bytes)) },
            Placement::Amid | Placement::Exact => {}
            Placement::Behind => self.lender.rooms.borrow_mut().push(self.block.wrapping_add(bytes).wrapping_sub(ROOM)),
            Placement::Before => self.lender.rooms.borrow_mut().push(self.block),
        }
    }
}

// The system's calls and their numbers on Linux.
const PROT_NONE: i32 = 0;
const PROT_READ: i32 = 1;
const PROT_WRITE: i32 = 2;
const MAP_PRIVATE: i32 = 2;
const MAP_ANONYMOUS: i32 = 0x20;

extern "C" {
    fn mmap(at: *mut u8, length: usize, access: i32, flags: i32, file: i32, offset: i64) -> *mut u8;
    fn mprotect(at: *mut u8, length: usize, access: i32) -> i32;
}
