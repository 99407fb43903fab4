//! Declares the judge's C functions as in `listset.h`. A call is repeated with a larger buffer if the output does not
//! fit.

use crate::Wrong;

const FIRST_ROOM: usize = 4096; // the size of the first buffer for a text, in bytes

type OfRoom = unsafe extern "C" fn(*mut u8, usize, *mut u8) -> usize;
type OfText = unsafe extern "C" fn(*const u8, usize, *mut u8, usize, *mut u8) -> usize;
type OfTwoTexts = unsafe extern "C" fn(*const u8, usize, *const u8, usize, *mut u8, usize, *mut u8) -> usize;

extern "C" {
    pub fn listset_replay(text: *const u8, length: usize, room: *mut u8, size: usize, status: *mut u8) -> usize;
    pub fn listset_judge(text: *const u8, length: usize, room: *mut u8, size: usize, status: *mut u8) -> usize;
    pub fn listset_why(text: *const u8, length: usize, room: *mut u8, size: usize, status: *mut u8) -> usize;
    pub fn listset_check(text: *const u8, length: usize, room: *mut u8, size: usize, status: *mut u8) -> usize;
    pub fn listset_trace(text: *const u8, length: usize, room: *mut u8, size: usize, status: *mut u8) -> usize;
    pub fn listset_trace_with_chains(text: *const u8, length: usize, room: *mut u8, size: usize, status: *mut u8) -> usize;
    pub fn listset_draft(text: *const u8, length: usize, room: *mut u8, size: usize, status: *mut u8) -> usize;
    pub fn listset_gen(text: *const u8, length: usize, room: *mut u8, size: usize, status: *mut u8) -> usize;
    pub fn listset_example(text: *const u8, length: usize, room: *mut u8, size: usize, status: *mut u8) -> usize;
    pub fn listset_broken_example(text: *const u8, length: usize, room: *mut u8, size: usize, status: *mut u8) -> usize;
    pub fn listset_show(
        text: *const u8,
        length: usize,
        options: *const u8,
        options_length: usize,
        room: *mut u8,
        size: usize,
        status: *mut u8,
    ) -> usize;
    pub fn listset_show_svg(
        text: *const u8,
        length: usize,
        options: *const u8,
        options_length: usize,
        room: *mut u8,
        size: usize,
        status: *mut u8,
    ) -> usize;
    pub fn listset_examples(room: *mut u8, size: usize, status: *mut u8) -> usize;
    pub fn listset_faults(room: *mut u8, size: usize, status: *mut u8) -> usize;
    pub fn listset_version() -> *const std::os::raw::c_char;
}

pub fn of_room(function: OfRoom) -> Result<String, Wrong> {
    // SAFETY: `asked` passes pointers to a buffer of `size` bytes and to a status. Nothing else uses the buffer or the
    // status.
    asked(|room, size, status| unsafe { function(room, size, status) })
}

pub fn of_text(function: OfText, text: &[u8]) -> Result<String, Wrong> {
    // SAFETY: `asked` passes pointers to a buffer of `size` bytes and to a status. Nothing else uses the buffer or the
    // status. The text is borrowed during the call.
    asked(|room, size, status| unsafe { function(text.as_ptr(), text.len(), room, size, status) })
}

pub fn of_two_texts(function: OfTwoTexts, text: &[u8], options: &[u8]) -> Result<String, Wrong> {
    // SAFETY: `asked` passes pointers to a buffer of `size` bytes and to a status. Nothing else uses the buffer or the
    // status. Both texts are borrowed during the call.
    asked(|room, size, status| unsafe {
        function(text.as_ptr(), text.len(), options.as_ptr(), options.len(), room, size, status)
    })
}

fn asked(call: impl Fn(*mut u8, usize, *mut u8) -> usize) -> Result<String, Wrong> {
    let mut room = vec![0; FIRST_ROOM];
    loop {
        let mut status = 0;
        let length = call(room.as_mut_ptr(), room.len(), &mut status);
        if length > room.len() {
            room.resize(length, 0);
            continue;
        }
        room.truncate(length);
        let text = String::from_utf8_lossy(&room).into_owned();
        return if status == 0 { Ok(text) } else { Err(Wrong { text, status }) };
    }
}
