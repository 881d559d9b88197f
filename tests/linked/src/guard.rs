//! Buffers between pages that trap.
//!
//! A buffer stands at the end of its pages, where a byte past it traps, or at
//! their start, where a byte before it does. Bytes further off trap as well, as
//! far as an offset of 32 bits reaches. A buffer of length 0 has no page.

use std::cell::Cell;
use std::ffi::{c_int, c_void};
use std::sync::Once;
use std::{ptr, slice};

/// A page of x86-64, for which the archive is made.
const PAGE: usize = 4096;
/// The most bytes of a buffer: more than 50 of the largest files, each after its length.
const ROOM: usize = 4 << 20;
/// Bytes that always trap, on either side of the room.
const APART: usize = 5 << 30;

const PROT_NONE: c_int = 0;
const PROT_READ: c_int = 1;
const PROT_WRITE: c_int = 2;
const MAP_PRIVATE: c_int = 0x02;
const MAP_ANONYMOUS: c_int = 0x20;
const MAP_NORESERVE: c_int = 0x4000;

/// Signals that end a call, and what each of them means.
const TRAPS: [(c_int, &str); 5] = [
    (4, "no such instruction"),
    (6, "it gave up"),
    (7, "a byte outside touched"),
    (8, "a division by 0"),
    (11, "a byte outside touched, or one lent to read written"),
];

extern "C" {
    fn mmap(
        at: *mut c_void,
        length: usize,
        access: c_int,
        flags: c_int,
        file: c_int,
        offset: i64,
    ) -> *mut c_void;
    fn munmap(at: *mut c_void, length: usize) -> c_int;
    fn mprotect(at: *mut c_void, length: usize, access: c_int) -> c_int;
    fn signal(number: c_int, handler: extern "C" fn(c_int)) -> *mut c_void;
    fn _exit(status: c_int) -> !;
}

/// Where a buffer stands in its pages.
#[derive(Clone, Copy, Debug, PartialEq)]
pub enum Side {
    Start,
    End,
}

/// What may be done with the bytes of a buffer.
#[derive(Clone, Copy, Debug, PartialEq)]
pub enum Lent {
    ToRead,
    ToWrite,
}

/// A place for one buffer after another.
pub struct Guarded {
    /// The room, in which only the first pages, those of the present buffer, do not trap.
    room: *mut u8,
    /// The bytes of these pages.
    pages: usize,
    /// Where the buffer stands in them.
    offset: usize,
    length: usize,
    lent: Lent,
}

impl Guarded {
    /// A new place; its first buffer has length 0.
    pub fn map() -> Self {
        let flags = MAP_PRIVATE | MAP_ANONYMOUS | MAP_NORESERVE;
        // SAFETY: a new mapping, which nothing else uses.
        let start = unsafe {
            mmap(
                ptr::null_mut(),
                APART + ROOM + APART,
                PROT_NONE,
                flags,
                -1,
                0,
            )
        };
        assert!(start as isize != -1, "no address space for guard pages");
        Guarded {
            room: start.cast::<u8>().wrapping_add(APART),
            pages: 0,
            offset: 0,
            length: 0,
            lent: Lent::ToRead,
        }
    }

    /// Takes these bytes in place of the last ones.
    pub fn put(&mut self, bytes: &[u8], side: Side, lent: Lent) {
        assert!(bytes.len() <= ROOM);
        let pages = bytes.len().next_multiple_of(PAGE);
        if pages != self.pages {
            self.protect(ROOM, PROT_NONE);
            self.pages = pages;
        }
        self.protect(pages, PROT_READ | PROT_WRITE);
        self.length = bytes.len();
        self.offset = match side {
            Side::Start => 0,
            Side::End => pages - bytes.len(),
        };
        self.lent = Lent::ToWrite;
        self.bytes_mut().copy_from_slice(bytes);
        self.lent = lent;
        if lent == Lent::ToRead {
            self.protect(pages, PROT_READ);
        }
    }

    /// Sets what may be done with the first so many bytes of the room.
    fn protect(&mut self, length: usize, access: c_int) {
        // SAFETY: no reference into the room is alive, as `self` is borrowed alone.
        let status = unsafe { mprotect(self.room.cast(), length, access) };
        assert_eq!(status, 0, "mprotect");
    }

    /// The buffer.
    pub fn bytes(&self) -> &[u8] {
        // SAFETY: `put` has opened the pages of these bytes.
        unsafe { slice::from_raw_parts(self.room.add(self.offset), self.length) }
    }

    /// The buffer, if it is lent to write.
    pub fn bytes_mut(&mut self) -> &mut [u8] {
        assert_eq!(self.lent, Lent::ToWrite);
        // SAFETY: `put` has opened the pages of these bytes to write.
        unsafe { slice::from_raw_parts_mut(self.room.add(self.offset), self.length) }
    }
}

impl Drop for Guarded {
    fn drop(&mut self) {
        // SAFETY: the mapping that `map` made.
        unsafe { munmap(self.room.wrapping_sub(APART).cast(), APART + ROOM + APART) };
    }
}

// ---------------------------------------------------------------- traps

/// What to say of a call that traps, by what the trap means.
type Says<'a> = &'a dyn Fn(&str) -> String;

thread_local! {
    /// What to say if this thread traps now; null if nothing is watched.
    static WATCHED: Cell<*const Says<'static>> = const { Cell::new(ptr::null()) };
}

/// Runs a call; if it traps, the program prints what `says` gives and fails.
pub fn watch<T>(says: Says, call: impl FnOnce() -> T) -> T {
    static HANDLER: Once = Once::new();
    // SAFETY: the handler has the type that C asks for.
    HANDLER.call_once(|| unsafe {
        for (number, _) in TRAPS {
            signal(number, on_trap);
        }
    });
    WATCHED.set(ptr::from_ref(&says).cast());
    let answer = call();
    WATCHED.set(ptr::null());
    answer
}

/// Runs in place of the call that trapped, which holds no lock and never goes on.
extern "C" fn on_trap(number: c_int) {
    let trap = TRAPS.iter().find(|trap| trap.0 == number);
    let means = trap.map_or("another signal", |trap| trap.1);
    // SAFETY: the pointer is set only while `watch` runs, and `says` lives as long.
    match unsafe { WATCHED.get().as_ref() } {
        Some(says) => eprintln!("{}", says(means)),
        None => eprintln!("a trap outside any call: {means}"),
    }
    // SAFETY: ends the process.
    unsafe { _exit(1) }
}

#[cfg(test)]
mod tests {
    use super::*;
    use std::env;
    use std::process::Command;

    const LENGTHS: [usize; 6] = [0, 1, 36, 4095, 4096, 4097];

    #[test]
    #[ignore = "what a process of its own does, by the variable TOUCH"]
    fn touch() {
        let Ok(touch) = env::var("TOUCH") else {
            return;
        };
        let words: Vec<&str> = touch.split(' ').collect();
        let side = [Side::Start, Side::End][usize::from(words[0] == "End")];
        let lent = [Lent::ToRead, Lent::ToWrite][usize::from(words[1] == "ToWrite")];
        let bytes = vec![7; words[2].parse().unwrap()];
        let mut guarded = Guarded::map();
        guarded.put(&bytes, side, lent);
        assert_eq!(guarded.bytes(), bytes);
        let byte = guarded
            .bytes()
            .as_ptr()
            .wrapping_offset(words[3].parse().unwrap());
        // SAFETY: meant to trap wherever the byte is not one that was lent.
        watch(&|means| format!("trap: {means}: {touch}"), || unsafe {
            if words[4] == "true" {
                byte.cast_mut().write_volatile(7);
            } else {
                byte.read_volatile();
            }
        });
    }

    /// Touches a byte in a process of its own: whether it ends well, or in a trap.
    fn ends_well(side: Side, lent: Lent, length: usize, offset: isize, write: bool) -> bool {
        let output = Command::new(env::current_exe().unwrap())
            .args(["--exact", "guard::tests::touch", "--ignored", "--nocapture"])
            .env(
                "TOUCH",
                format!("{side:?} {lent:?} {length} {offset} {write}"),
            )
            .output()
            .unwrap();
        let trapped = String::from_utf8_lossy(&output.stderr).contains("trap: ");
        assert_ne!(trapped, output.status.success());
        !trapped
    }

    #[test]
    fn bytes_outside_trap() {
        for length in LENGTHS {
            let end = length as isize;
            for write in [false, true] {
                assert!(!ends_well(Side::End, Lent::ToWrite, length, end, write));
                assert!(!ends_well(Side::Start, Lent::ToWrite, length, -1, write));
            }
            let far = u32::MAX as isize;
            assert!(!ends_well(Side::Start, Lent::ToRead, length, far, false));
            assert!(!ends_well(Side::End, Lent::ToRead, length, -far, false));
        }
    }

    #[test]
    fn bytes_inside_do_not() {
        for side in [Side::Start, Side::End] {
            for length in &LENGTHS[1..] {
                for offset in [0, *length as isize - 1] {
                    assert!(ends_well(side, Lent::ToWrite, *length, offset, true));
                    assert!(ends_well(side, Lent::ToRead, *length, offset, false));
                    assert!(!ends_well(side, Lent::ToRead, *length, offset, true));
                }
            }
            assert!(!ends_well(side, Lent::ToRead, 0, 0, false));
            assert!(!ends_well(side, Lent::ToRead, 0, -1, false));
        }
    }
}
