//! The functions of the library, declared once, and wrapped: slices go in, and a struct with all that the call gave comes out.

use crate::guarded::{stands, Pattern, GUARDS};

mod library {
    extern "C" {
        pub fn zeppilorn_box_words() -> usize;
        pub fn zeppilorn_open(words: *mut u32, count: usize, interval: u32, cycle: u32, factors: *const u32, classes: usize) -> u32;
        pub fn zeppilorn_is_sound(words: *const u32, count: usize) -> u32;
        pub fn zeppilorn_admit(
            words: *mut u32,
            count: usize,
            class_number: u32,
            longest: u32,
            burst: u32,
            period: u32,
            fields: *mut u32,
        ) -> u32;
        pub fn zeppilorn_offer(words: *mut u32, count: usize, connection: u32, units: u32, fields: *mut u32) -> u32;
        pub fn zeppilorn_step(words: *mut u32, count: usize, fields: *mut u32) -> u32;
        pub fn zeppilorn_read_plan(plan: *const u8, size: usize, fields: *mut u32) -> u32;
        pub fn zeppilorn_factor(classes: *const u8, size: usize, place: usize, fields: *mut u32) -> u32;
        pub fn zeppilorn_connection(connections: *const u8, size: usize, place: usize, fields: *mut u32) -> u32;
        pub fn zeppilorn_arrival(arrivals: *const u8, size: usize, place: usize, fields: *mut u32) -> u32;
        pub fn zeppilorn_slot_arrivals(arrivals: *const u8, size: usize, from: usize, slot: u32, fields: *mut usize) -> u32;
        pub fn zeppilorn_write_plan(
            interval: u32,
            cycle: u32,
            factors: *const u32,
            classes: usize,
            connections: *const u32,
            connection_words: usize,
            arrivals: *const u32,
            arrival_words: usize,
            plan: *mut u8,
            size: usize,
            fields: *mut u32,
        ) -> u32;
        pub fn zeppilorn_run_plan(plan: *const u8, size: usize, text: *mut u8, text_size: usize, fields: *mut u32) -> u32;
    }
}

/// What a call gave: its answer number, its result fields, and whether the words around the fields were left alone.
#[derive(Clone, Copy, Debug, PartialEq)]
pub struct Answered<T, const N: usize> {
    pub number: u32,
    pub fields: [T; N],
    pub guards_stand: bool,
}

impl<T, const N: usize> Answered<T, N> {
    /// What a call must give.
    pub fn must_be(number: u32, fields: [T; N]) -> Answered<T, N> {
        Answered { number, fields, guards_stand: true }
    }
}

/// Result fields as they are lent: between guards, and filled with a pattern, so that a field that is not written is seen.
#[repr(C)]
struct Fields<T, const N: usize> {
    before: [T; GUARDS],
    lent: [T; N],
    after: [T; GUARDS],
}

fn ask<T: Pattern, const N: usize>(call: impl FnOnce(*mut T) -> u32) -> Answered<T, N> {
    let (guard, lent) = (std::array::from_fn(T::pattern), std::array::from_fn(|i| T::pattern(GUARDS + i)));
    let mut fields = Fields { before: guard, lent, after: guard };
    // the pointer may reach the guards too: a call that writes there must not be undefined behaviour on our side
    let first = (&raw mut fields).cast::<T>();
    let number = call(first.wrapping_add(GUARDS));
    Answered { number, fields: fields.lent, guards_stand: stands(&fields.before) && stands(&fields.after) }
}

pub fn box_words() -> usize {
    unsafe { library::zeppilorn_box_words() }
}

pub fn open(words: &mut [u32], interval: u32, cycle: u32, factors: &[u32]) -> u32 {
    unsafe { library::zeppilorn_open(words.as_mut_ptr(), words.len(), interval, cycle, factors.as_ptr(), factors.len()) }
}

pub fn is_sound(words: &[u32]) -> u32 {
    unsafe { library::zeppilorn_is_sound(words.as_ptr(), words.len()) }
}

/// The newcomer's class, s, b and T; the fields are its number and t.
pub fn admit(words: &mut [u32], [class, longest, burst, period]: [u32; 4]) -> Answered<u32, 2> {
    let (at, count) = (words.as_mut_ptr(), words.len());
    ask(|fields| unsafe { library::zeppilorn_admit(at, count, class, longest, burst, period, fields) })
}

/// The field is the serial.
pub fn offer(words: &mut [u32], connection: u32, units: u32) -> Answered<u32, 1> {
    ask(|fields| unsafe { library::zeppilorn_offer(words.as_mut_ptr(), words.len(), connection, units, fields) })
}

/// The fields are serial, units left, connection, arrival and departure.
pub fn step(words: &mut [u32]) -> Answered<u32, 5> {
    ask(|fields| unsafe { library::zeppilorn_step(words.as_mut_ptr(), words.len(), fields) })
}

/// The fields are D, M, and count and offset of the classes, the connections and the arrivals.
pub fn read_plan(plan: &[u8]) -> Answered<u32, 8> {
    ask(|fields| unsafe { library::zeppilorn_read_plan(plan.as_ptr(), plan.len(), fields) })
}

pub fn factor(classes: &[u8], place: usize) -> Answered<u32, 1> {
    ask(|fields| unsafe { library::zeppilorn_factor(classes.as_ptr(), classes.len(), place, fields) })
}

/// The fields are class, s, b and T.
pub fn connection(connections: &[u8], place: usize) -> Answered<u32, 4> {
    ask(|fields| unsafe { library::zeppilorn_connection(connections.as_ptr(), connections.len(), place, fields) })
}

/// The fields are slot, place of the connection and length.
pub fn arrival(arrivals: &[u8], place: usize) -> Answered<u32, 3> {
    ask(|fields| unsafe { library::zeppilorn_arrival(arrivals.as_ptr(), arrivals.len(), place, fields) })
}

/// The fields are the first byte of the slot's stretch and its size.
pub fn slot_arrivals(arrivals: &[u8], from: usize, slot: u32) -> Answered<usize, 2> {
    ask(|fields| unsafe { library::zeppilorn_slot_arrivals(arrivals.as_ptr(), arrivals.len(), from, slot, fields) })
}

/// D and M and the tables, as words; the field is the number of bytes written.
pub fn write_plan(header: [u32; 2], tables: [&[u32]; 3], plan: &mut [u8]) -> Answered<u32, 1> {
    let [factors, connections, arrivals] = tables;
    ask(|fields| unsafe {
        library::zeppilorn_write_plan(
            header[0],
            header[1],
            factors.as_ptr(),
            factors.len(),
            connections.as_ptr(),
            connections.len(),
            arrivals.as_ptr(),
            arrivals.len(),
            plan.as_mut_ptr(),
            plan.len(),
            fields,
        )
    })
}

/// The field is the number of bytes of text.
pub fn run_plan(plan: &[u8], text: &mut [u8]) -> Answered<u32, 1> {
    ask(|fields| unsafe { library::zeppilorn_run_plan(plan.as_ptr(), plan.len(), text.as_mut_ptr(), text.len(), fields) })
}
