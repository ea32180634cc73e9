//! What is made once: connections, requests, and sets of filters.

use crate::{decided, input_of, is_expected, Decision, Error, Facts, Filter, Request};
use vupresal_sys as sys;

/// The facts of a connection, which are checked once for all its requests.
pub struct Connection {
    handle: sys::vupresal_connection,
    // the lines of a request as C has them: the room is kept, and empty between two calls
    lines: Vec<sys::vupresal_line>,
}

/// A request that was made once, for any filters.
pub struct MadeRequest {
    pub(crate) handle: sys::vupresal_made_request,
}

/// Filters in order. The first that refuses a request decides; if none refuses, the last does.
pub struct FilterSet {
    handle: sys::vupresal_set,
}

/// What a set of filters says of a request.
#[derive(Clone, Copy, Debug, PartialEq, Eq)]
pub struct SetDecision {
    /// The decision of the filter that decides.
    pub decision: Decision,
    /// Its number, in the order in which the filters were added.
    pub filter: u64,
}

// SAFETY: the library's handles may pass from thread to thread, which it proves (`handles_cross_threads`). `lines` is empty between calls.
unsafe impl Send for Connection {}
// SAFETY: as above.
unsafe impl Send for MadeRequest {}
// SAFETY: as above.
unsafe impl Send for FilterSet {}

impl Connection {
    /// Checks the facts.
    ///
    /// # Errors
    ///
    /// Why they are those of no connection.
    pub fn new(facts: &Facts) -> Result<Self, Error> {
        if !is_expected() {
            return Err(Error::Other(sys::VUPRESAL_EMPTY));
        }
        let mut it = Self { handle: sys::vupresal_connection::empty(), lines: Vec::new() };
        // SAFETY: each pointer is valid until the call returns, and none is kept.
        let status = facts.with(|facts| unsafe { sys::vupresal_connection_new(&mut it.handle, facts) });
        Error::unless_ok(status).map(|()| it)
    }

    /// Makes a request of its parts. It has all of its fields, also those that a filter ignores.
    ///
    /// # Errors
    ///
    /// Why there is none. It is to be refused.
    pub fn request<N: AsRef<[u8]>, V: AsRef<[u8]>>(&mut self, request: &Request<'_, N, V>) -> Result<MadeRequest, Error> {
        let input = input_of(request, |_| true, &mut self.lines);
        let mut made = MadeRequest { handle: sys::vupresal_made_request::empty() };
        // SAFETY: each pointer is valid for its length until the call returns, and none is kept.
        let status = unsafe { sys::vupresal_request_of_parts(&mut made.handle, &mut self.handle, &input) };
        self.lines.clear();
        Error::unless_ok(status).map(|()| made)
    }

    /// Makes a request of its whole head of HTTP/1, with all of its fields.
    ///
    /// # Errors
    ///
    /// As of [`Connection::request`]; also if the head is not whole.
    pub fn head(&mut self, head: &[u8]) -> Result<MadeRequest, Error> {
        let mut made = MadeRequest { handle: sys::vupresal_made_request::empty() };
        // SAFETY: as above.
        let status = unsafe { sys::vupresal_request_of_head(&mut made.handle, &mut self.handle, head.as_ptr(), head.len()) };
        Error::unless_ok(status).map(|()| made)
    }
}

impl FilterSet {
    /// A set without filters, which decides nothing.
    pub fn new() -> Self {
        Self { handle: sys::vupresal_set::empty() }
    }

    /// Adds the filter as the last. Nothing is copied.
    ///
    /// # Errors
    ///
    /// If memory ran out.
    pub fn add(&mut self, filter: &mut Filter) -> Result<(), Error> {
        // SAFETY: both handles are such.
        Error::unless_ok(unsafe { sys::vupresal_set_add(&mut self.handle, &mut filter.handle) })
    }

    /// The decision on a request that was made once.
    ///
    /// # Errors
    ///
    /// Why there is no decision. The request is to be refused.
    pub fn decide(&mut self, request: &mut MadeRequest) -> Result<SetDecision, Error> {
        let mut answer = sys::vupresal_set_decision::default();
        // SAFETY: both handles are such.
        let status = unsafe { sys::vupresal_set_decide(&mut self.handle, &mut request.handle, &mut answer) };
        decided(status, answer.decision).map(|decision| SetDecision { decision, filter: answer.filter })
    }
}

impl Default for FilterSet {
    fn default() -> Self {
        Self::new()
    }
}

impl Drop for Connection {
    fn drop(&mut self) {
        // SAFETY: the handle is one; an empty one may be freed too.
        unsafe { sys::vupresal_connection_free(&mut self.handle) };
    }
}

impl Drop for MadeRequest {
    fn drop(&mut self) {
        // SAFETY: the handle is one; an empty one may be freed too.
        unsafe { sys::vupresal_request_free(&mut self.handle) };
    }
}

impl Drop for FilterSet {
    fn drop(&mut self) {
        // SAFETY: the handle is one; an empty one may be freed too.
        unsafe { sys::vupresal_set_free(&mut self.handle) };
    }
}
