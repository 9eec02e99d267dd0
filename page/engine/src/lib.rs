//! The calls of the page over the core and the proved engine: JSON in, JSON out. A Worker lends the sources, asks a call by
//! its name, and takes the answer and the lists beside it.

mod call;
mod hang;
mod library;
mod memory;
mod runs;
mod take;
mod text;
mod work;

use call::{Answer, Call, No};
use rizhavaan_core::Source;
use serde_json::Value;

/// What stands between two calls.
struct State {
    /// What the Worker writes into.
    buffer: Vec<u8>,
    sources: Vec<Source>,
    answer: String,
    /// Numbers that an answer names by their index here.
    lists: Vec<Vec<u32>>,
}

static mut STATE: State = State { buffer: Vec::new(), sources: Vec::new(), answer: String::new(), lists: Vec::new() };

/// The module has one thread, and no call is made from within another.
fn state() -> &'static mut State {
    unsafe { &mut STATE }
}

/// A buffer of so many bytes, for the Worker to write into.
#[no_mangle]
pub extern "C" fn reserve(length: u32) -> *mut u8 {
    let state = state();
    state.buffer = vec![0; length as usize];
    state.buffer.as_mut_ptr()
}

/// The buffer is a source: so many bytes of its name, then what it holds.
#[no_mangle]
pub extern "C" fn source(name_length: u32) {
    let state = state();
    let mut bytes = std::mem::take(&mut state.buffer);
    let held = bytes.split_off(name_length as usize);
    state.sources.push(Source::new(String::from_utf8_lossy(&bytes), held));
}

/// The buffer is `{ "call": NAME, "args": .. }`. Answers 0, or 1 where the answer is why there is none. The sources are used up.
#[no_mangle]
pub extern "C" fn call() -> u32 {
    memory::watch();
    let state = state();
    state.answer = String::new();
    state.lists = Vec::new();
    let sources = std::mem::take(&mut state.sources);
    let asked = std::mem::take(&mut state.buffer);
    let (status, answer) = match answered(&asked, &sources, &mut state.lists) {
        Ok(answer) => (0, answer),
        Err(no) => (1, no.to_json()),
    };
    state.answer = answer;
    status
}

fn answered(asked: &[u8], sources: &[Source], lists: &mut Vec<Vec<u32>>) -> Answer {
    let asked: Value = serde_json::from_slice(asked).map_err(|e| No::because(format!("the call is no JSON: {e}")))?;
    let mut call = Call { args: &asked["args"], sources, lists };
    match asked["call"].as_str().unwrap_or_default() {
        "read" => hang::read(&mut call),
        "find" => runs::find(&mut call),
        "check" => runs::check(&call),
        "diff" => runs::diff(&call),
        "explain" => work::explain(&call),
        "orderings" => work::orderings(&call),
        "pattern" => text::pattern(&call),
        "write_pattern" => text::write_pattern(&call),
        "sheets" => take::sheets(&call),
        "csv" => take::csv(&call),
        "text_of" => take::text_of(&call),
        other => Err(No::because(format!("there is no call '{other}'"))),
    }
}

#[no_mangle]
pub extern "C" fn answer_pointer() -> *const u8 {
    state().answer.as_ptr()
}

#[no_mangle]
pub extern "C" fn answer_length() -> u32 {
    state().answer.len() as u32
}

#[no_mangle]
pub extern "C" fn lists() -> u32 {
    state().lists.len() as u32
}

#[no_mangle]
pub extern "C" fn list_pointer(i: u32) -> *const u32 {
    state().lists[i as usize].as_ptr()
}

#[no_mangle]
pub extern "C" fn list_length(i: u32) -> u32 {
    state().lists[i as usize].len() as u32
}
