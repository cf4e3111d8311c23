// The proved functions of crates/chars_c and chars_b, linked from their static libraries, behind safe wrappers, and those of sql_lexer_c by
// include/hayrumble.rs. A Rattle `&[u8]` goes over as its address and its length.
#[path = "../../include/hayrumble.rs"]
mod hayrumble;
#[allow(unused_imports)] // where the ported Rust is not at hand
pub use hayrumble::{lex, sanitize, sanitize_string, shape, write, Answer};

// As chars_c declares it.
#[repr(C)]
struct HayStep {
    status: u32,
    scalar: u32,
    next: usize,
}

#[link(name = "chars_c", kind = "static")]
extern "C" {
    fn hay_is_alphabetic(c: u32) -> bool;
    fn hay_is_numeric(c: u32) -> bool;
    fn hay_valid_up_to(text: *const u8, len: usize) -> usize;
    fn hay_step(text: *const u8, len: usize, at: usize) -> HayStep;
}

#[link(name = "chars_b", kind = "static")]
extern "C" {
    fn hay_count(text: *const u8, len: usize) -> usize;
}

#[derive(PartialEq, Eq, Debug, Clone, Copy)]
pub enum Step {
    Char(u32, usize),
    Bad,
    End,
}

pub fn is_alphabetic(c: u32) -> bool {
    unsafe { hay_is_alphabetic(c) }
}

pub fn is_numeric(c: u32) -> bool {
    unsafe { hay_is_numeric(c) }
}

pub fn valid_up_to(text: &[u8]) -> usize {
    unsafe { hay_valid_up_to(text.as_ptr(), text.len()) }
}

pub fn step(text: &[u8], at: usize) -> Step {
    let step = unsafe { hay_step(text.as_ptr(), text.len(), at) };
    match step.status {
        0 => Step::Char(step.scalar, step.next),
        1 => Step::Bad,
        2 => Step::End,
        other => panic!("a step with status {other}"),
    }
}

pub fn count(text: &[u8]) -> usize {
    unsafe { hay_count(text.as_ptr(), text.len()) }
}
