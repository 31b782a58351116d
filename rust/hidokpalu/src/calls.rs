//! The calls as they stand in `include/hidokpalu.h`: buffers and codes, with slices in place of pointers and lengths. The functions of the
//! other modules rest on these. This module declares the archive's functions, and nothing else does.
//!
//! Each call is safe for every argument: the proved functions have no precondition, and a slice of Rattle is a pointer and a length.
#![allow(unsafe_code)]

/// A trace of an image and the start values of registers whose mark is 0.
#[derive(Clone, Copy, Debug)]
pub struct Run<'a> {
    pub image: &'a [u8],
    pub trace: &'a [u8],
    pub given: &'a [u8],
}

/// Two traces with a handover between them.
#[derive(Clone, Copy, Debug)]
pub struct Crossing<'a> {
    pub old: &'a [u8],
    pub new: &'a [u8],
    /// The table of the handover: for each old point a new point and a line.
    pub points: &'a [u8],
    pub first: &'a [u8],
    pub second: &'a [u8],
    pub given: &'a [u8],
}

/// Cents for an obligation of each class, and the least charge.
#[derive(Clone, Copy, Debug, PartialEq, Eq)]
pub struct Tariff {
    pub start: u16,
    pub step: u16,
    pub taken: u16,
    pub interference: u16,
    pub least: u16,
}

/// The declarations of the header, in its order.
mod archive {
    extern "C" {
        pub fn check_image(image: *const u8, image_len: usize, out: *mut u8, out_len: usize)
            -> u16;
        pub fn trim_image(
            image: *const u8,
            image_len: usize,
            out: *mut u8,
            out_len: usize,
            written: *mut usize,
        ) -> u16;
        pub fn replay_trace(
            image: *const u8,
            image_len: usize,
            trace: *const u8,
            trace_len: usize,
            given: *const u8,
            given_len: usize,
            table: *mut u8,
            table_len: usize,
            answer: *mut usize,
            answer_len: usize,
        ) -> u16;
        pub fn check_handover(
            old_image: *const u8,
            old_len: usize,
            new_image: *const u8,
            new_len: usize,
            table: *const u8,
            table_len: usize,
        ) -> u16;
        pub fn replay_handover(
            old_image: *const u8,
            old_len: usize,
            new_image: *const u8,
            new_len: usize,
            points: *const u8,
            points_len: usize,
            first: *const u8,
            first_len: usize,
            second: *const u8,
            second_len: usize,
            given: *const u8,
            given_len: usize,
            table: *mut u8,
            table_len: usize,
            answer: *mut usize,
            answer_len: usize,
        ) -> u16;
        pub fn open_service(
            rights: *const u8,
            rights_len: usize,
            service: *mut u32,
            service_len: usize,
        ) -> u16;
        pub fn serve_check(
            service: *const u32,
            service_len: usize,
            caller: usize,
            image: *const u8,
            image_len: usize,
            out: *mut u8,
            out_len: usize,
        ) -> u16;
        pub fn serve_trim(
            service: *const u32,
            service_len: usize,
            caller: usize,
            image: *const u8,
            image_len: usize,
            out: *mut u8,
            out_len: usize,
            written: *mut usize,
        ) -> u16;
        pub fn serve_handover(
            service: *const u32,
            service_len: usize,
            caller: usize,
            old_image: *const u8,
            old_len: usize,
            new_image: *const u8,
            new_len: usize,
            table: *const u8,
            table_len: usize,
        ) -> u16;
        pub fn serve_replay(
            service: *const u32,
            service_len: usize,
            caller: usize,
            image: *const u8,
            image_len: usize,
            trace: *const u8,
            trace_len: usize,
            given: *const u8,
            given_len: usize,
            table: *mut u8,
            table_len: usize,
            answer: *mut usize,
            answer_len: usize,
        ) -> u16;
        pub fn serve_replay_handover(
            service: *const u32,
            service_len: usize,
            caller: usize,
            old_image: *const u8,
            old_len: usize,
            new_image: *const u8,
            new_len: usize,
            points: *const u8,
            points_len: usize,
            first: *const u8,
            first_len: usize,
            second: *const u8,
            second_len: usize,
            given: *const u8,
            given_len: usize,
            table: *mut u8,
            table_len: usize,
            answer: *mut usize,
            answer_len: usize,
        ) -> u16;
        pub fn serve_bill(
            service: *mut u32,
            service_len: usize,
            caller: usize,
            image: *const u8,
            image_len: usize,
            start: u16,
            step: u16,
            taken: u16,
            interference: u16,
            least: u16,
            answer: *mut u32,
            answer_len: usize,
        ) -> u16;
    }
}

/// Where a slice begins, and how long it is.
fn parts<T>(slice: &[T]) -> (*const T, usize) {
    (slice.as_ptr(), slice.len())
}

/// The same of a slice that is written.
fn room<T>(slice: &mut [T]) -> (*mut T, usize) {
    (slice.as_mut_ptr(), slice.len())
}

pub fn check_image(image: &[u8], out: &mut [u8]) -> u16 {
    let ((image, length), (out, space)) = (parts(image), room(out));
    // SAFETY: pointers and lengths are those of slices that live until the call returns, those that are written borrowed for writing alone,
    // so that none overlap; the function has no other precondition. This holds of every call below.
    unsafe { archive::check_image(image, length, out, space) }
}

pub fn trim_image(image: &[u8], out: &mut [u8], written: &mut usize) -> u16 {
    let ((image, length), (out, space)) = (parts(image), room(out));
    // SAFETY: as of `check_image`.
    unsafe { archive::trim_image(image, length, out, space, written) }
}

pub fn replay_trace(
    image: &[u8],
    trace: &[u8],
    given: &[u8],
    table: &mut [u8],
    answer: &mut [usize],
) -> u16 {
    let [(image, length), (trace, steps), (given, registers)] = [image, trace, given].map(parts);
    let ((table, entries), (answer, numbers)) = (room(table), room(answer));
    // SAFETY: as of `check_image`.
    unsafe {
        archive::replay_trace(
            image, length, trace, steps, given, registers, table, entries, answer, numbers,
        )
    }
}

pub fn check_handover(old: &[u8], new: &[u8], table: &[u8]) -> u16 {
    let [(old, before), (new, after), (table, entries)] = [old, new, table].map(parts);
    // SAFETY: as of `check_image`.
    unsafe { archive::check_handover(old, before, new, after, table, entries) }
}

pub fn replay_handover(run: &Crossing, table: &mut [u8], answer: &mut [usize]) -> u16 {
    let [(old, before), (new, after), (points, pointed)] =
        [run.old, run.new, run.points].map(parts);
    let [(first, one), (second, two), (given, registers)] =
        [run.first, run.second, run.given].map(parts);
    let ((table, entries), (answer, numbers)) = (room(table), room(answer));
    // SAFETY: as of `check_image`.
    unsafe {
        archive::replay_handover(
            old, before, new, after, points, pointed, first, one, second, two, given, registers,
            table, entries, answer, numbers,
        )
    }
}

pub fn open_service(rights: &[u8], service: &mut [u32]) -> u16 {
    let ((rights, callers), (service, numbers)) = (parts(rights), room(service));
    // SAFETY: as of `check_image`.
    unsafe { archive::open_service(rights, callers, service, numbers) }
}

pub fn serve_check(service: &[u32], caller: usize, image: &[u8], out: &mut [u8]) -> u16 {
    let ((service, numbers), (image, length)) = (parts(service), parts(image));
    let (out, space) = room(out);
    // SAFETY: as of `check_image`.
    unsafe { archive::serve_check(service, numbers, caller, image, length, out, space) }
}

pub fn serve_trim(
    service: &[u32],
    caller: usize,
    image: &[u8],
    out: &mut [u8],
    written: &mut usize,
) -> u16 {
    let ((service, numbers), (image, length)) = (parts(service), parts(image));
    let (out, space) = room(out);
    // SAFETY: as of `check_image`.
    unsafe { archive::serve_trim(service, numbers, caller, image, length, out, space, written) }
}

pub fn serve_handover(service: &[u32], caller: usize, old: &[u8], new: &[u8], table: &[u8]) -> u16 {
    let (service, numbers) = parts(service);
    let [(old, before), (new, after), (table, entries)] = [old, new, table].map(parts);
    // SAFETY: as of `check_image`.
    unsafe {
        archive::serve_handover(service, numbers, caller, old, before, new, after, table, entries)
    }
}

pub fn serve_replay(
    service: &[u32],
    caller: usize,
    run: &Run,
    table: &mut [u8],
    answer: &mut [usize],
) -> u16 {
    let (service, numbers) = parts(service);
    let [(image, length), (trace, steps), (given, registers)] =
        [run.image, run.trace, run.given].map(parts);
    let ((table, entries), (answer, answers)) = (room(table), room(answer));
    // SAFETY: as of `check_image`.
    unsafe {
        archive::serve_replay(
            service, numbers, caller, image, length, trace, steps, given, registers, table,
            entries, answer, answers,
        )
    }
}

pub fn serve_replay_handover(
    service: &[u32],
    caller: usize,
    run: &Crossing,
    table: &mut [u8],
    answer: &mut [usize],
) -> u16 {
    let (service, numbers) = parts(service);
    let [(old, before), (new, after), (points, pointed)] =
        [run.old, run.new, run.points].map(parts);
    let [(first, one), (second, two), (given, registers)] =
        [run.first, run.second, run.given].map(parts);
    let ((table, entries), (answer, answers)) = (room(table), room(answer));
    // SAFETY: as of `check_image`.
    unsafe {
        archive::serve_replay_handover(
            service, numbers, caller, old, before, new, after, points, pointed, first, one, second,
            two, given, registers, table, entries, answer, answers,
        )
    }
}

pub fn serve_bill(
    service: &mut [u32],
    caller: usize,
    image: &[u8],
    tariff: &Tariff,
    answer: &mut [u32],
) -> u16 {
    let Tariff { start, step, taken, interference, least } = *tariff;
    let ((service, numbers), (image, length)) = (room(service), parts(image));
    let (answer, answers) = room(answer);
    // SAFETY: as of `check_image`.
    unsafe {
        archive::serve_bill(
            service,
            numbers,
            caller,
            image,
            length,
            start,
            step,
            taken,
            interference,
            least,
            answer,
            answers,
        )
    }
}
