//! `include/kapi.h`, as Rust has it.

use std::os::raw::c_char;

pub const ABI: u32 = 2;
pub const WANTS_SETTLED: u32 = 0;
pub const WANTS_DECISION: u32 = 1;
pub const WANTS_LINE: u32 = 2;
pub const WANTS_WHO: u32 = 3;
pub const WANTS_WHO_ANYWHERE: u32 = 4;
pub const WANTS_WHAT: u32 = 5;
pub const WANTS_RISKS: u32 = 6;
pub const WANTS_PATHS: u32 = 7;
pub const WANTS_MISSING: u32 = 8;
pub const WANTS_GAINS: u32 = 9;
pub const FORM_JSON: u32 = 2;

#[repr(C)]
pub struct Policy {
    opaque: [u8; 0],
}

#[repr(C)]
#[derive(Clone, Copy)]
pub struct Text {
    pub bytes: *const u8,
    pub length: usize,
}

#[repr(C)]
#[derive(Clone, Copy)]
pub struct Texts {
    pub texts: *const Text,
    pub length: usize,
}

#[repr(C)]
pub struct Question {
    pub user: Text,
    pub groups: Texts,
    pub name_space: Text,
    pub verb: Text,
    pub group: Text,
    pub resource: Text,
    pub subresource: Text,
    pub name: Text,
    pub path: Text,
}

#[repr(C)]
pub struct Call {
    pub wants: u32,
    pub form: u32,
    pub question: Question,
    pub other: Text,
    pub without: Texts,
}

#[repr(C)]
#[derive(Default)]
pub struct Answer {
    pub decision: u32,
    pub length: usize,
}

const _: () = assert!(std::mem::size_of::<Question>() == 144);
const _: () = assert!(std::mem::size_of::<Call>() == 184);
const _: () = assert!(std::mem::size_of::<Answer>() == 16);

extern "C" {
    pub fn kapi_abi() -> u32;
    pub fn kapi_load(objects: *const c_char, length: usize, line: *mut usize, policy: *mut *mut Policy) -> u32;
    pub fn kapi_ask(policy: *const Policy, call: *const Call, answer: *mut Answer, room: *mut c_char, size: usize) -> u32;
    pub fn kapi_share(policy: *const Policy, other: *mut *mut Policy) -> u32;
    pub fn kapi_drop(policy: *mut Policy);
}
