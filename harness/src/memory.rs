//! Memory that an ordinary buffer cannot stand in for: buffers that touch a page which nobody may touch, and buffers of
//! more elements than 32 bits count.
use std::ptr::null_mut;
use std::sync::atomic::{AtomicPtr, Ordering::SeqCst};

mod c {
    extern "C" {
        pub fn mmap(at: *mut u8, length: usize, protection: i32, flags: i32, file: i32, offset: i64) -> *mut u8;
        pub fn mprotect(at: *mut u8, length: usize, protection: i32) -> i32;
        pub fn signal(number: i32, handler: extern "C" fn(i32)) -> usize;
    }
    pub const NONE: i32 = 0;
    pub const READ_WRITE: i32 = 1 | 2;
    /// Private, anonymous, no memory set aside.
    pub const RESERVE: i32 = 0x2 | 0x20 | 0x4000;
    pub const FAULT: i32 = 11;
}

const PAGE: usize = 4_096;

/// Pages for so many bytes, all 0, between two guard pages: whoever touches those faults. They stay until the program
/// ends, and only those that are touched take memory.
fn pages(length: usize) -> &'static mut [u8] {
    let whole = length.next_multiple_of(PAGE);
    unsafe {
        let at = c::mmap(null_mut(), whole + 2 * PAGE, c::NONE, c::RESERVE, -1, 0);
        assert!(at as isize != -1, "no address space for {length} bytes");
        assert!(c::mprotect(at.add(PAGE), whole, c::READ_WRITE) == 0, "{length} bytes cannot be made writable");
        std::slice::from_raw_parts_mut(at.add(PAGE), whole)
    }
}

/// The same memory as 32-bit numbers; its start and its length are multiples of four.
fn numbers(bytes: &mut [u8]) -> &mut [u32] {
    let (before, numbers, after) = unsafe { bytes.align_to_mut() };
    assert!(before.is_empty() && after.is_empty());
    numbers
}

pub fn long_bytes(count: usize) -> &'static mut [u8] {
    &mut pages(count)[..count]
}

pub fn long_numbers(count: usize) -> &'static mut [u32] {
    &mut numbers(pages(4 * count))[..count]
}

/// A place for a buffer beside a guard page: it ends where one begins, or begins where one ends.
pub struct Guarded(&'static mut [u8]);

#[derive(Clone, Copy)]
pub enum Side { Ends, Begins }

impl Guarded {
    /// Room for so many bytes.
    pub fn new(length: usize) -> Guarded {
        Guarded(pages(length))
    }

    fn room(&mut self, length: usize, side: Side) -> &mut [u8] {
        match side {
            Side::Ends => {
                let start = self.0.len() - length;
                &mut self.0[start..]
            }
            Side::Begins => &mut self.0[..length],
        }
    }

    /// A copy of the bytes, beside a guard page.
    pub fn bytes(&mut self, from: &[u8], side: Side) -> &mut [u8] {
        let room = self.room(from.len(), side);
        room.copy_from_slice(from);
        room
    }

    pub fn numbers(&mut self, from: &[u32], side: Side) -> &mut [u32] {
        let room = numbers(self.room(4 * from.len(), side));
        room.copy_from_slice(from);
        room
    }
}

type Message<'a> = &'a dyn Fn() -> String;

/// What is said where a guard page is touched; none while no call is watched.
static MESSAGE: AtomicPtr<Message> = AtomicPtr::new(null_mut());

extern "C" fn fault(_: i32) {
    let message = MESSAGE.load(SeqCst);
    match unsafe { message.as_ref() } {
        Some(message) => println!("FAULT: {}", message()),
        None => println!("FAULT outside a call of the library"),
    }
    std::process::exit(1)
}

/// From here on a fault ends the program with a message and status 1.
pub fn report_faults() {
    unsafe { c::signal(c::FAULT, fault) };
}

/// Runs a call; where it faults, `message` is what is said.
pub fn watched(message: Message, call: impl FnOnce()) {
    MESSAGE.store(&raw const message as *mut Message, SeqCst);
    call();
    MESSAGE.store(null_mut(), SeqCst);
}
