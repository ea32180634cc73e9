//! Decides on HTTP requests by Envoy's RBAC filters, with libvupresal.
//!
//! ```no_run
//! use vupresal::{Facts, Filter, Options, Request};
//!
//! let message = std::fs::read("filter.bin").unwrap();
//! let mut filter = Filter::admit(&message, &Options::default()).unwrap();
//! let lines = [("host", "shop.example")];
//! let decision = filter.decide(&Request::get("/about", &lines), &Facts::default()).unwrap();
//! assert!(decision.allowed);
//! ```
//!
//! A [`Filter`] may pass to another thread, and one call at a time has it, as `&mut` says. [`Filter::share`] gives one to each thread.
//!
//! What is asked more than once is made once: a [`Connection`] checks its facts and makes each [`MadeRequest`], for any filters. A
//! [`FilterSet`] asks its filters in order.
#![deny(missing_docs)]

mod facts;
mod ignored;
mod once;
mod status;

pub use facts::Facts;
pub use once::{Connection, FilterSet, MadeRequest, SetDecision};
pub use status::{Error, Refusal};

use ignored::Ignored;
use std::mem::size_of;
use std::ptr;
use std::sync::Arc;
use vupresal_sys as sys;

/// The limits of the requests that a filter is asked for. All six 0 are the greatest, which are in brackets.
#[derive(Clone, Copy, Debug, Default, PartialEq, Eq)]
pub struct Bounds {
    /// The number of field lines, and 3 for the method, the path and the scheme (64).
    pub fields: usize,
    /// The bytes of a field's name (128).
    pub name: usize,
    /// The bytes of a field's value (4096).
    pub value: usize,
    /// The bytes of the method (32).
    pub method: usize,
    /// The bytes of the target (4096).
    pub target: usize,
    /// The bytes of any other text (1024).
    pub text: usize,
}

/// What a filter is admitted with.
#[derive(Clone, Copy, Debug, PartialEq, Eq)]
pub struct Options<'a> {
    /// The most steps that the conditions may take for one request: 1 to 100,000,000.
    pub budget: u64,
    /// The limits of requests.
    pub bounds: Bounds,
    /// The most visits that measuring the conditions may take; 0 for 4,194,304.
    pub visits: u64,
    /// Names of fields, in any case, whose lines are left out of each request before the limits apply. A filter that reads such a field
    /// finds none: a DENY on it never matches. [`Filter::may_read_ignored`] says which of these a filter may read.
    pub ignore: &'a [&'a str],
}

impl Default for Options<'_> {
    fn default() -> Self {
        Self { budget: 1_000_000, bounds: Bounds::default(), visits: 0, ignore: &[] }
    }
}

/// The protocol of a request.
#[derive(Clone, Copy, Debug, PartialEq, Eq)]
pub enum Protocol {
    /// HTTP/1.0, which needs no host.
    Http10,
    /// HTTP/1.1.
    Http11,
    /// HTTP/2.
    Http2,
    /// HTTP/3.
    Http3,
}

/// A request by its parts. The host is a line of the name `host` or `:authority`.
#[derive(Clone, Copy, Debug)]
pub struct Request<'a, N: AsRef<[u8]>, V: AsRef<[u8]>> {
    /// The method.
    pub method: &'a str,
    /// The path and query to judge, beginning with a slash.
    pub target: &'a str,
    /// The fields, in the order of the request.
    pub lines: &'a [(N, V)],
    /// The protocol.
    pub protocol: Protocol,
}

impl<'a, N: AsRef<[u8]>, V: AsRef<[u8]>> Request<'a, N, V> {
    /// A GET of HTTP/1.1.
    pub fn get(target: &'a str, lines: &'a [(N, V)]) -> Self {
        Self { method: "GET", target, lines, protocol: Protocol::Http11 }
    }
}

/// What a filter says of a request.
#[derive(Clone, Copy, Debug, PartialEq, Eq)]
pub struct Decision {
    /// Whether the request may pass.
    pub allowed: bool,
    /// The number of the first policy that matches, in ascending order of names, if one does: for [`Filter::policy_name`].
    pub policy: Option<u64>,
}

/// An admitted filter.
pub struct Filter {
    handle: sys::vupresal_filter,
    // the lines of a request as C has them: the room is kept, and empty between two calls
    lines: Vec<sys::vupresal_line>,
    ignored: Arc<Ignored>,
}

// SAFETY: the library's handles may pass from thread to thread, which it proves (`handles_cross_threads`). `lines` is empty between calls.
unsafe impl Send for Filter {}

fn bytes_of(bytes: &[u8]) -> sys::vupresal_bytes {
    sys::vupresal_bytes { at: bytes.as_ptr(), length: bytes.len() }
}

/// Whether the library is one that this crate is for.
fn is_expected() -> bool {
    let is = build();
    is.number / 1_000_000 == sys::VUPRESAL_ABI
        && is.number >= sys::VUPRESAL_VERSION_NUMBER
        && is.build == size_of::<sys::vupresal_build>()
        && is.filter == size_of::<sys::vupresal_filter>()
        && is.bounds == size_of::<sys::vupresal_bounds>()
        && is.facts == size_of::<sys::vupresal_facts>()
        && is.line == size_of::<sys::vupresal_line>()
        && is.request == size_of::<sys::vupresal_request>()
        && is.decision == size_of::<sys::vupresal_decision>()
}

fn build() -> sys::vupresal_build {
    let mut is = sys::vupresal_build::default();
    // SAFETY: the layout of this struct never changes.
    unsafe { sys::vupresal_version(&mut is) };
    is
}

/// Whether each function of the library is proved to meet its contract.
pub fn is_proved() -> bool {
    build().is_proved
}

impl Filter {
    /// Admits the message of an HTTP RBAC filter.
    ///
    /// # Errors
    ///
    /// Why the message, a number of the options, or an ignored name is refused; or that the library is another one than expected.
    pub fn admit(message: &[u8], options: &Options<'_>) -> Result<Self, Refusal> {
        if !is_expected() {
            return Err(Refusal::other_library());
        }
        let ignored = Arc::new(Ignored::new(options.ignore, message)?);
        let mut filter = Self { handle: sys::vupresal_filter::empty(), lines: Vec::new(), ignored };
        let limits = &options.bounds;
        let bounds = sys::vupresal_bounds {
            fields: limits.fields,
            name: limits.name,
            value: limits.value,
            method: limits.method,
            target: limits.target,
            text: limits.text,
            visits: options.visits,
        };
        let mut place = [0_u8; 512];
        // SAFETY: each pointer is valid for its length, and the handle is empty.
        let status = unsafe {
            sys::vupresal_filter_admit(
                &mut filter.handle,
                message.as_ptr(),
                message.len(),
                &bounds,
                options.budget,
                place.as_mut_ptr(),
                place.len(),
            )
        };
        if status == sys::VUPRESAL_OK {
            return Ok(filter);
        }
        let end = place.iter().position(|&byte| byte == 0).unwrap_or(place.len());
        Err(Refusal::new(status, String::from_utf8_lossy(&place[..end]).into_owned()))
    }

    /// Another handle of this filter, for another thread. Nothing is copied.
    ///
    /// # Errors
    ///
    /// If memory ran out.
    pub fn share(&mut self) -> Result<Self, Error> {
        let mut other = Self { handle: sys::vupresal_filter::empty(), lines: Vec::new(), ignored: Arc::clone(&self.ignored) };
        // SAFETY: these are two handles.
        let status = unsafe { sys::vupresal_filter_share_distinct(&mut self.handle, &mut other.handle) };
        Error::unless_ok(status).map(|()| other)
    }

    /// The decision on a request by its parts.
    ///
    /// # Errors
    ///
    /// Why there is no decision. The request is to be refused.
    pub fn decide<N: AsRef<[u8]>, V: AsRef<[u8]>>(&mut self, request: &Request<'_, N, V>, facts: &Facts) -> Result<Decision, Error> {
        let ignored = &self.ignored;
        let input = input_of(request, |name| !ignored.has(name), &mut self.lines);
        let mut decision = sys::vupresal_decision::default();
        // SAFETY: each pointer is valid for its length until the call returns, and none is kept.
        let status = facts.with(|facts| unsafe { sys::vupresal_filter_decide(&mut self.handle, &input, facts, &mut decision) });
        self.lines.clear();
        decided(status, decision)
    }

    /// The decision on a request by its whole head of HTTP/1.
    ///
    /// # Errors
    ///
    /// As of [`Filter::decide`]; also if the head is not whole.
    pub fn decide_head(&mut self, head: &[u8], facts: &Facts) -> Result<Decision, Error> {
        let head = &*self.ignored.head_without(head);
        let mut decision = sys::vupresal_decision::default();
        // SAFETY: as above.
        let status = facts
            .with(|facts| unsafe { sys::vupresal_filter_decide_head(&mut self.handle, head.as_ptr(), head.len(), facts, &mut decision) });
        decided(status, decision)
    }

    /// Those names of [`Options::ignore`], in lower case, that the filter's message has as a text: its policies may read these fields,
    /// and find none. A name that a condition puts together, or meets in a loop over all headers, is not found.
    pub fn may_read_ignored(&self) -> &[String] {
        self.ignored.suspects()
    }

    /// The decision on a request that was made once: as on its parts, or on its head. No field of it is ignored.
    ///
    /// # Errors
    ///
    /// Why there is no decision. The request is to be refused.
    pub fn decide_request(&mut self, request: &mut MadeRequest) -> Result<Decision, Error> {
        let mut decision = sys::vupresal_decision::default();
        // SAFETY: both handles are such.
        let status = unsafe { sys::vupresal_filter_decide_request(&mut self.handle, &mut request.handle, &mut decision) };
        decided(status, decision)
    }

    /// The number of policies.
    pub fn policies(&mut self) -> usize {
        // SAFETY: the handle is one.
        unsafe { sys::vupresal_filter_policies(&mut self.handle) }
    }

    /// The most steps that the conditions together take for one request.
    pub fn bound(&mut self) -> u64 {
        // SAFETY: the handle is one.
        unsafe { sys::vupresal_filter_bound(&mut self.handle) }
    }

    /// The name of a policy by its number, in ascending order of names.
    pub fn policy_name(&mut self, number: u64) -> Option<String> {
        if number >= self.policies() as u64 {
            return None;
        }
        // SAFETY: no byte of an empty room is written.
        let length = unsafe { sys::vupresal_filter_policy_name(&mut self.handle, number, ptr::null_mut(), 0) };
        let mut room = vec![0_u8; length];
        // SAFETY: the room has this length.
        unsafe { sys::vupresal_filter_policy_name(&mut self.handle, number, room.as_mut_ptr(), room.len()) };
        String::from_utf8(room).ok()
    }
}

impl Drop for Filter {
    fn drop(&mut self) {
        // SAFETY: the handle is one; an empty one may be freed too.
        unsafe { sys::vupresal_filter_free(&mut self.handle) };
    }
}

/// A request as C has it. Those of its lines whose names are kept are in this room until it is cleared.
fn input_of<N: AsRef<[u8]>, V: AsRef<[u8]>>(
    request: &Request<'_, N, V>,
    is_kept: impl Fn(&[u8]) -> bool,
    room: &mut Vec<sys::vupresal_line>,
) -> sys::vupresal_request {
    room.clear();
    room.extend(
        request
            .lines
            .iter()
            .filter(|(name, _)| is_kept(name.as_ref()))
            .map(|(name, value)| sys::vupresal_line { name: bytes_of(name.as_ref()), value: bytes_of(value.as_ref()) }),
    );
    sys::vupresal_request {
        method: bytes_of(request.method.as_bytes()),
        target: bytes_of(request.target.as_bytes()),
        lines: if room.is_empty() { ptr::null() } else { room.as_ptr() },
        line_count: room.len(),
        is_http11: request.protocol != Protocol::Http10,
        protocol: match request.protocol {
            Protocol::Http10 | Protocol::Http11 => 0,
            Protocol::Http2 => 2,
            Protocol::Http3 => 3,
        },
    }
}

fn decided(status: i32, decision: sys::vupresal_decision) -> Result<Decision, Error> {
    Error::unless_ok(status)?;
    Ok(Decision { allowed: decision.is_allowed, policy: decision.is_matched.then(|| decision.matched) })
}
