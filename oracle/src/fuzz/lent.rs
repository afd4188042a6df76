//! Memory lent to the library, each buffer on pages of its own: a page that nobody may touch comes
//! right after it, so that reading or writing past its end stops the run, and the bytes before it are
//! looked at afterwards.

use std::cell::RefCell;
use std::ffi::{c_int, c_void};

extern "C" {
    fn mmap(
        at: *mut c_void,
        n: usize,
        prot: c_int,
        flags: c_int,
        fd: c_int,
        from: i64,
    ) -> *mut c_void;
    fn mprotect(at: *mut c_void, n: usize, prot: c_int) -> c_int;
}

const PAGE: usize = 4096;
/// Bytes of a buffer at the most: a track's work space, and a page before it.
const ROOM: usize = 34 * PAGE;
/// How many buffers a call has at the most.
const BUFFERS: usize = 20;
/// What stands before a buffer.
const BEFORE: u8 = 0xC7;

thread_local! {
    static PAGES: RefCell<Option<usize>> = const { RefCell::new(None) };
}

/// The pages, mapped once: for each buffer its room and the page after it.
fn pages() -> usize {
    PAGES.with_borrow_mut(|pages| *pages.get_or_insert_with(map))
}

fn map() -> usize {
    let each = ROOM + PAGE;
    // SAFETY: fresh pages, private and readable (1) and writable (2); MAP_PRIVATE (2), MAP_ANONYMOUS (32).
    unsafe {
        let at = mmap(std::ptr::null_mut(), each * BUFFERS, 3, 34, -1, 0);
        assert!(at as isize != -1, "no memory");
        for k in 0..BUFFERS {
            let guard = at.cast::<u8>().add(k * each + ROOM);
            assert_eq!(mprotect(guard.cast(), PAGE, 0), 0);
        }
        at as usize
    }
}

/// The buffers of one call.
pub struct Lender {
    next: usize,
}

/// A buffer, and what it held.
pub struct Lent<T> {
    at: *mut T,
    given: Vec<T>,
}

impl Lender {
    pub fn new() -> Self {
        Self { next: 0 }
    }

    /// A buffer of these elements, which ends where the page ends.
    pub fn lend<T: Copy>(&mut self, given: &[T]) -> Lent<T> {
        let bytes = std::mem::size_of_val(given);
        assert!(
            bytes + 64 <= ROOM && self.next < BUFFERS,
            "too large a buffer"
        );
        let end = pages() + self.next * (ROOM + PAGE) + ROOM;
        self.next += 1;
        let at = (end - bytes) as *mut T;
        // SAFETY: within the room of this buffer; the end is aligned to a page, so `at` is to T.
        unsafe {
            std::ptr::write_bytes((end - bytes - 64) as *mut u8, BEFORE, 64);
            std::ptr::copy_nonoverlapping(given.as_ptr(), at, given.len());
        }
        Lent {
            at,
            given: given.to_vec(),
        }
    }
}

impl<T: Copy> Lent<T> {
    pub fn at(&self) -> *mut T {
        self.at
    }

    pub fn len(&self) -> usize {
        self.given.len()
    }

    /// What the buffer was lent with.
    pub fn given(&self) -> &[T] {
        &self.given
    }

    fn bytes(elements: &[T]) -> &[u8] {
        // SAFETY: numbers have no padding.
        unsafe {
            std::slice::from_raw_parts(elements.as_ptr().cast(), std::mem::size_of_val(elements))
        }
    }

    /// What the buffer holds now; the bytes before it must be as they were.
    pub fn now(&self) -> &[T] {
        // SAFETY: the buffer and the bytes before it are ours.
        unsafe {
            let before = std::slice::from_raw_parts(self.at.cast::<u8>().sub(64), 64);
            assert!(
                before.iter().all(|&b| b == BEFORE),
                "bytes before a buffer were written"
            );
            std::slice::from_raw_parts(self.at, self.given.len())
        }
    }

    /// The buffer must hold what it was lent with.
    pub fn kept(&self) {
        assert!(
            Self::bytes(self.now()) == Self::bytes(&self.given),
            "a buffer was written"
        );
    }

    /// The buffer must hold these elements, to the last bit.
    pub fn holds(&self, expected: &[T]) {
        assert!(
            Self::bytes(self.now()) == Self::bytes(expected),
            "a buffer does not hold what it should"
        );
    }
}
