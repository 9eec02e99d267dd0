//! The C interface: one question, asked in JSON of nothing, of a hang or of a list; the answer is JSON, and
//! where it is one a new thing, which may have words to look at.
//!
//! A thing never changes, so that any number of threads may ask it at once. What is asked is answered on a
//! thread of its own: the engine takes a megabyte of stack, and the caller's may be shorter.

mod ask;
mod call;
#[path = "../../../../cli/src/engine.rs"]
mod engine;
mod hang;
mod list;
#[allow(dead_code)]
#[path = "../../../../cli/src/memory.rs"]
mod memory;
mod pattern;
mod thing;
mod work;

use std::mem::ManuallyDrop;
use std::ptr;
use std::sync::Arc;
use std::thread;

use call::{Made, No};
use thing::Thing;

/// The number of this interface: one with another is not asked.
const INTERFACE: u32 = 1;

/// The stack of a question, in bytes.
const STACK: usize = 8 << 20;

/// Bytes that the caller lends for the time of a question.
#[repr(C)]
pub struct Lent {
    bytes: *const u8,
    length: u64,
}

/// An answer. The JSON is handed back by `rizhavaan_forget`; the thing by `rizhavaan_release`, and its words
/// go with it.
#[repr(C)]
pub struct Answer {
    json: *mut u8,
    json_length: u64,
    thing: *const Thing,
    words: *const u32,
    words_length: u64,
}

#[no_mangle]
pub extern "C" fn rizhavaan_interface() -> u32 {
    INTERFACE
}

/// Asks a question: the first of what is lent is its JSON, the others are what it speaks of. Answers 0, or 1
/// where the JSON says why there is no answer.
///
/// # Safety
/// `thing` is null or one that was answered and not released; `lent` has `count` entries, each of which
/// points to as many bytes as it says; `answer` is written.
#[no_mangle]
pub unsafe extern "C" fn rizhavaan_ask(
    thing: *const Thing,
    lent: *const Lent,
    count: u64,
    answer: *mut Answer,
) -> u32 {
    let thing = if thing.is_null() { None } else { Some(ManuallyDrop::new(Arc::from_raw(thing))) };
    let lent = slice(lent, count);
    let lent: Vec<&[u8]> = lent.iter().map(|lent| slice(lent.bytes, lent.length)).collect();
    let made = on_a_thread(|| ask::ask(thing.as_deref(), &lent));
    let (status, json, thing) = match made {
        Ok(Made { json, thing }) => (0, json, thing),
        Err(no) => (1, no.to_json(), None),
    };
    let json = ManuallyDrop::new(json.into_bytes().into_boxed_slice());
    let words = thing.as_ref().map_or(&[][..], |thing| thing.words());
    let mut written = Answer {
        json: json.as_ptr().cast_mut(),
        json_length: json.len() as u64,
        thing: ptr::null(),
        words: words.as_ptr(),
        words_length: words.len() as u64,
    };
    if let Some(thing) = thing {
        written.thing = Arc::into_raw(thing);
    }
    answer.write(written);
    status
}

/// Hands the JSON of an answer back.
///
/// # Safety
/// It is that of an answer, and has not been handed back.
#[no_mangle]
pub unsafe extern "C" fn rizhavaan_forget(json: *mut u8, length: u64) {
    drop(Box::from_raw(ptr::slice_from_raw_parts_mut(json, length as usize)));
}

/// Hands a thing back.
///
/// # Safety
/// It was answered, and has not been released.
#[no_mangle]
pub unsafe extern "C" fn rizhavaan_release(thing: *const Thing) {
    drop(Arc::from_raw(thing));
}

unsafe fn slice<'a, T>(start: *const T, length: u64) -> &'a [T] {
    match length {
        0 => &[],
        length => std::slice::from_raw_parts(start, length as usize),
    }
}

/// Answers on a thread with a stack that is long enough; a panic is an answer too.
fn on_a_thread(answer: impl FnOnce() -> Result<Made, No> + Send) -> Result<Made, No> {
    thread::scope(|scope| {
        let started = thread::Builder::new().stack_size(STACK).spawn_scoped(scope, answer);
        match started.map(|thread| thread.join()) {
            Ok(Ok(answer)) => answer,
            Ok(Err(panic)) => Err(No::panic(&*panic)),
            Err(e) => Err(No::internal(format!("no thread for the question: {e}"))),
        }
    })
}
