//! The library under test: each buffer is lent between guards, and all of them are read again after the call.

use crate::calls::{Call, Operation, Outcome};
use std::ffi::c_void;
use std::ops::Range;

extern "C" {
    fn zgv_read_book(book: *const u8, book_len: usize) -> u64;
    fn zgv_read_book_strict(book: *const u8, book_len: usize) -> u64;
    fn zgv_rewrite_book(book: *const u8, book_len: usize, out: *mut u8, out_len: usize) -> u64;
    fn zgv_rule(book: *const u8, book_len: usize, index: u32) -> u64;
    fn zgv_lex(
        book: *const u8,
        book_len: usize,
        text: *const u8,
        text_len: usize,
        records: *mut u8,
        records_len: usize,
        masks: *mut u8,
        masks_len: usize,
    ) -> u64;
    fn zgv_lex_builtin(
        text: *const u8,
        text_len: usize,
        records: *mut u8,
        records_len: usize,
        masks: *mut u8,
        masks_len: usize,
    ) -> u64;
    fn zgv_lex_within(
        book: *const u8,
        book_len: usize,
        text: *const u8,
        text_len: usize,
        place: usize,
        budget: u64,
        records: *mut u8,
        records_len: usize,
        masks: *mut u8,
        masks_len: usize,
        next: *mut u64,
        examined: *mut u64,
    ) -> u64;
    fn zgv_print(
        book: *const u8,
        book_len: usize,
        records: *const u8,
        records_len: usize,
        pool: *const u8,
        pool_len: usize,
        out: *mut u8,
        out_len: usize,
    ) -> u64;
    fn zgv_print_separated(
        book: *const u8,
        book_len: usize,
        separator_tag: u16,
        separator_place: u32,
        separator_length: u32,
        mode: u32,
        records: *const u8,
        records_len: usize,
        pool: *const u8,
        pool_len: usize,
        out: *mut u8,
        out_len: usize,
    ) -> u64;
    fn zgv_compile(tag: u16, kind: u32, regex: *const u8, regex_len: usize, out: *mut u8, out_len: usize) -> u64;

    fn mmap(addr: *mut c_void, len: usize, prot: i32, flags: i32, fd: i32, offset: i64) -> *mut c_void;
    fn mprotect(addr: *mut c_void, len: usize, prot: i32) -> i32;
}

const PAGE: usize = 4096;
const SLOT: usize = 512 * PAGE;
const GUARD: usize = 64;
const GUARD_BYTE: u8 = 0xA5;

const PROT_NONE: i32 = 0;
const PROT_READ_WRITE: i32 = 3;
const MAP_PRIVATE_ANONYMOUS: i32 = 0x22;

/// Which end of its slot a buffer lies against. At that end the next byte is on a page that cannot be touched, so that a
/// read or write there ends the program; at the other end stand guard bytes.
#[derive(Clone, Copy, Debug, PartialEq, Eq)]
pub enum Against {
    Front,
    Back,
}

/// Memory for one lent buffer, between two pages that cannot be touched.
struct Slot {
    base: *mut u8,
}

impl Slot {
    fn new() -> Slot {
        // SAFETY: a fresh mapping of our own, whose first and last page are then closed.
        unsafe {
            let whole =
                mmap(std::ptr::null_mut(), SLOT + 2 * PAGE, PROT_READ_WRITE, MAP_PRIVATE_ANONYMOUS, -1, 0) as *mut u8;
            assert!(whole as isize != -1, "no memory for a slot");
            assert_eq!(mprotect(whole as *mut c_void, PAGE, PROT_NONE), 0);
            assert_eq!(mprotect(whole.add(PAGE + SLOT) as *mut c_void, PAGE, PROT_NONE), 0);
            Slot { base: whole.add(PAGE) }
        }
    }

    fn all(&mut self) -> &mut [u8] {
        // SAFETY: the slot's open pages, which only this value refers to.
        unsafe { std::slice::from_raw_parts_mut(self.base, SLOT) }
    }

    fn start(len: usize, against: Against) -> usize {
        assert!(len + GUARD <= SLOT, "a buffer larger than its slot");
        match against {
            Against::Front => 0,
            Against::Back => SLOT - len,
        }
    }

    fn guard(len: usize, against: Against) -> Range<usize> {
        match against {
            Against::Front => len..len + GUARD,
            Against::Back => SLOT - len - GUARD..SLOT - len,
        }
    }

    fn lend(&mut self, bytes: &[u8], against: Against) -> *mut u8 {
        let start = Slot::start(bytes.len(), against);
        let all = self.all();
        all[Slot::guard(bytes.len(), against)].fill(GUARD_BYTE);
        all[start..start + bytes.len()].copy_from_slice(bytes);
        self.base.wrapping_add(start)
    }

    fn take_back(&mut self, len: usize, against: Against) -> Result<Vec<u8>, &'static str> {
        let start = Slot::start(len, against);
        let all = self.all();
        if all[Slot::guard(len, against)].iter().any(|&b| b != GUARD_BYTE) {
            return Err("a byte outside the buffer was written");
        }
        Ok(all[start..start + len].to_vec())
    }
}

/// The library, with a slot for each buffer of a call.
pub struct Library {
    slots: Vec<Slot>,
}

impl Library {
    pub fn new() -> Library {
        Library { slots: (0..6).map(|_| Slot::new()).collect() }
    }

    /// Calls the library. An empty buffer is lent as NULL half of the time. An error says which guard was broken.
    pub fn run(&mut self, call: &Call, against: Against) -> Result<Outcome, String> {
        self.run_showing(call, against, 0..call.text.len())
    }

    /// The same with no other bytes of the text there than these.
    pub fn run_showing(&mut self, call: &Call, against: Against, shown: Range<usize>) -> Result<Outcome, String> {
        let lent = call.buffers();
        let there = |name: &str, bytes: &[u8]| if name == "text" { shown.clone() } else { 0..bytes.len() };
        let mut pointers: Vec<*mut u8> = Vec::new();
        for (slot, (name, bytes)) in self.slots.iter_mut().zip(&lent) {
            let part = there(name, bytes);
            let pointer = slot.lend(&bytes[part.clone()], against).wrapping_sub(part.start);
            pointers.push(if bytes.is_empty() && against == Against::Back {
                std::ptr::null_mut()
            } else if matches!(*name, "text" | "pool")
                && call.operation != Operation::LexBuiltin
                && **bytes == call.book
                && part == (0..bytes.len())
            {
                // both are only read, so that they may be one
                pointers[0]
            } else {
                pointer
            });
        }
        let answer = Library::invoke(call, &lent, &pointers);
        let mut buffers = Vec::new();
        for (slot, (name, bytes)) in self.slots.iter_mut().zip(&lent) {
            let part = there(name, bytes);
            let after = slot.take_back(part.len(), against).map_err(|e| format!("{name}: {e}"))?;
            buffers.push([&bytes[..part.start], &after, &bytes[part.end..]].concat());
        }
        Ok(Outcome { answer, buffers })
    }

    fn invoke(call: &Call, lent: &[(&'static str, &Vec<u8>)], p: &[*mut u8]) -> u64 {
        let n: Vec<usize> = lent.iter().map(|(_, b)| b.len()).collect();
        let s = call.separator;
        // SAFETY: each pointer has that many bytes behind it, in slots that do not overlap, but for two that are only read. Of the text
        // some may not be there: those that the call does not read.
        unsafe {
            match call.operation {
                Operation::ReadBook => zgv_read_book(p[0], n[0]),
                Operation::ReadBookStrict => zgv_read_book_strict(p[0], n[0]),
                Operation::RewriteBook => zgv_rewrite_book(p[0], n[0], p[1], n[1]),
                Operation::Rule => zgv_rule(p[0], n[0], call.index),
                Operation::Lex => zgv_lex(p[0], n[0], p[1], n[1], p[2], n[2], p[3], n[3]),
                Operation::LexBuiltin => zgv_lex_builtin(p[0], n[0], p[1], n[1], p[2], n[2]),
                Operation::LexWithin => {
                    // at either end of its slot a number is aligned
                    let (next, examined) = (p[4] as *mut u64, p[5] as *mut u64);
                    let (place, budget) = (call.place as usize, call.budget);
                    zgv_lex_within(p[0], n[0], p[1], n[1], place, budget, p[2], n[2], p[3], n[3], next, examined)
                }
                Operation::Print => zgv_print(p[0], n[0], p[1], n[1], p[2], n[2], p[3], n[3]),
                Operation::PrintSeparated => zgv_print_separated(
                    p[0], n[0], s.tag, s.place, s.length, call.mode, p[1], n[1], p[2], n[2], p[3], n[3],
                ),
                Operation::Compile => zgv_compile(call.tag, call.kind, p[0], n[0], p[1], n[1]),
            }
        }
    }
}
