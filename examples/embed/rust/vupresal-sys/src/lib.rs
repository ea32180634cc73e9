//! The functions and structs of `vupresal.h` for filters. The header says what each does; the crate `vupresal` is safe.
#![no_std]
#![allow(non_camel_case_types)]

use core::ffi::c_void;

/// The version of the header, and its ABI: a library is of the same ABI, and of this version or a later one.
pub const VUPRESAL_VERSION_NUMBER: u64 = 1000;
pub const VUPRESAL_ABI: u64 = 0;
/// The greatest budget of a filter.
pub const VUPRESAL_MOST_BUDGET: u64 = 100_000_000;

pub const VUPRESAL_OK: i32 = 0;
pub const VUPRESAL_MEMORY: i32 = 19;
pub const VUPRESAL_OUT_OF_STEPS: i32 = 20;
pub const VUPRESAL_EMPTY: i32 = -1;
pub const VUPRESAL_OUT_OF_RANGE: i32 = -2;
pub const VUPRESAL_BAD_REQUEST: i32 = 400;
pub const VUPRESAL_OUTSIDE_LIMITS: i32 = 431;
pub const VUPRESAL_TRANSFER_CODING: i32 = 501;

#[repr(C)]
#[derive(Clone, Copy)]
pub struct vupresal_bytes {
    pub at: *const u8,
    pub length: usize,
}

#[repr(C)]
#[derive(Clone, Copy)]
pub struct vupresal_text {
    pub bytes: vupresal_bytes,
    pub is_there: bool,
}

#[repr(C)]
#[derive(Clone, Copy, Default)]
pub struct vupresal_bounds {
    pub fields: usize,
    pub name: usize,
    pub value: usize,
    pub method: usize,
    pub target: usize,
    pub text: usize,
    pub visits: u64,
}

#[repr(C)]
#[derive(Clone, Copy)]
pub struct vupresal_facts {
    pub scheme: vupresal_bytes,
    pub source_address: vupresal_text,
    pub destination_address: vupresal_text,
    pub requested_server_name: vupresal_text,
    pub tls_version: vupresal_text,
    pub subject_peer_certificate: vupresal_text,
    pub dns_san_peer_certificate: vupresal_text,
    pub uri_san_peer_certificate: vupresal_text,
    pub direct_remote_ip: vupresal_bytes,
    pub remote_ip: vupresal_bytes,
    pub destination_ip: vupresal_bytes,
    pub source_port: i32,
    pub destination_port: i32,
    pub mtls: i32,
    pub connection_id: u64,
    pub has_connection_id: bool,
}

#[repr(C)]
#[derive(Clone, Copy)]
pub struct vupresal_line {
    pub name: vupresal_bytes,
    pub value: vupresal_bytes,
}

#[repr(C)]
#[derive(Clone, Copy)]
pub struct vupresal_request {
    pub method: vupresal_bytes,
    pub target: vupresal_bytes,
    pub lines: *const vupresal_line,
    pub line_count: usize,
    pub is_http11: bool,
    pub protocol: u64,
}

#[repr(C)]
#[derive(Clone, Copy, Default)]
pub struct vupresal_decision {
    pub matched: u64,
    pub is_matched: bool,
    pub is_allowed: bool,
}

/// A handle: empty if all its bytes are 0. It may be moved.
#[repr(C)]
pub struct vupresal_filter {
    at: *mut c_void,
    held: bool,
}

impl vupresal_filter {
    /// An empty handle.
    pub const fn empty() -> Self {
        Self { at: core::ptr::null_mut(), held: false }
    }
}

/// A connection's handle: empty if all its bytes are 0. It may be moved.
#[repr(C)]
pub struct vupresal_connection {
    at: *mut c_void,
    held: bool,
}

/// A request's handle: empty if all its bytes are 0. It may be moved.
#[repr(C)]
pub struct vupresal_made_request {
    at: *mut c_void,
    held: bool,
}

/// The handle of a set of filters: empty if all its bytes are 0. It may be moved.
#[repr(C)]
pub struct vupresal_set {
    at: *mut c_void,
    held: bool,
}

impl vupresal_connection {
    /// An empty handle.
    pub const fn empty() -> Self {
        Self { at: core::ptr::null_mut(), held: false }
    }
}

impl vupresal_made_request {
    /// An empty handle.
    pub const fn empty() -> Self {
        Self { at: core::ptr::null_mut(), held: false }
    }
}

impl vupresal_set {
    /// An empty handle.
    pub const fn empty() -> Self {
        Self { at: core::ptr::null_mut(), held: false }
    }
}

#[repr(C)]
#[derive(Clone, Copy, Default)]
pub struct vupresal_set_decision {
    pub decision: vupresal_decision,
    pub filter: u64,
}

#[repr(C)]
#[derive(Clone, Copy, Default)]
pub struct vupresal_build {
    pub number: u64,
    pub filter: usize,
    pub proxy: usize,
    pub bounds: usize,
    pub facts: usize,
    pub line: usize,
    pub request: usize,
    pub decision: usize,
    pub resource: usize,
    pub settings: usize,
    pub given: usize,
    pub build: usize,
    pub is_proved: bool,
}

extern "C" {
    pub fn vupresal_filter_admit(
        filter: *mut vupresal_filter,
        message: *const u8,
        length: usize,
        bounds: *const vupresal_bounds,
        budget: u64,
        place: *mut u8,
        room: usize,
    ) -> i32;
    pub fn vupresal_filter_decide(
        filter: *mut vupresal_filter,
        request: *const vupresal_request,
        facts: *const vupresal_facts,
        decision: *mut vupresal_decision,
    ) -> i32;
    pub fn vupresal_filter_decide_head(
        filter: *mut vupresal_filter,
        head: *const u8,
        length: usize,
        facts: *const vupresal_facts,
        decision: *mut vupresal_decision,
    ) -> i32;
    pub fn vupresal_filter_policies(filter: *mut vupresal_filter) -> usize;
    pub fn vupresal_filter_bound(filter: *mut vupresal_filter) -> u64;
    pub fn vupresal_filter_policy_name(filter: *mut vupresal_filter, number: u64, room: *mut u8, length: usize) -> usize;
    /// For two handles, not for one.
    pub fn vupresal_filter_share_distinct(from: *mut vupresal_filter, to: *mut vupresal_filter) -> i32;
    pub fn vupresal_filter_free(filter: *mut vupresal_filter);
    pub fn vupresal_connection_new(connection: *mut vupresal_connection, facts: *const vupresal_facts) -> i32;
    pub fn vupresal_connection_free(connection: *mut vupresal_connection);
    pub fn vupresal_request_of_parts(
        made: *mut vupresal_made_request,
        connection: *mut vupresal_connection,
        request: *const vupresal_request,
    ) -> i32;
    pub fn vupresal_request_of_head(
        made: *mut vupresal_made_request,
        connection: *mut vupresal_connection,
        head: *const u8,
        length: usize,
    ) -> i32;
    pub fn vupresal_request_free(made: *mut vupresal_made_request);
    pub fn vupresal_filter_decide_request(
        filter: *mut vupresal_filter,
        made: *mut vupresal_made_request,
        decision: *mut vupresal_decision,
    ) -> i32;
    pub fn vupresal_set_add(set: *mut vupresal_set, filter: *mut vupresal_filter) -> i32;
    pub fn vupresal_set_decide(set: *mut vupresal_set, made: *mut vupresal_made_request, decision: *mut vupresal_set_decision) -> i32;
    pub fn vupresal_set_free(set: *mut vupresal_set);
    pub fn vupresal_version(build: *mut vupresal_build);
}
