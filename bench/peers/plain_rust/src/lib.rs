//! Peers in plain Rust: httparse alone, and the engine's work on a head as a Rust programmer would write it over httparse:
//! names in lower case, texts of their own, the rules on Host and on lengths, headers sorted, those of one name joined,
//! pseudo-headers, and the limits.
use std::hint::black_box;

const MOST_FIELDS: usize = 64;
const MOST_NAME: usize = 128;
const MOST_VALUE: usize = 4096;

pub struct Request {
    pub method: String,
    pub target: String,
    pub path_length: usize,
    pub is_http11: bool,
    pub field_lines: usize,
    pub headers: Vec<(String, String)>,
}

fn is_length(value: &str) -> bool {
    (1..=18).contains(&value.len()) && value.bytes().all(|byte| byte.is_ascii_digit())
}

fn read_request(bytes: &[u8]) -> Option<Request> {
    let mut fields = [httparse::EMPTY_HEADER; MOST_FIELDS];
    let mut head = httparse::Request::new(&mut fields);
    if !head.parse(bytes).ok()?.is_complete() {
        return None;
    }
    let (method, target) = (head.method?, head.path?);
    if !target.starts_with('/') {
        return None;
    }
    let field_lines = head.headers.len();
    let mut headers = Vec::with_capacity(field_lines + 3);
    let (mut hosts, mut lengths) = (0, 0);
    for field in head.headers.iter() {
        let value = std::str::from_utf8(field.value).ok()?.to_owned();
        let mut name = field.name.to_ascii_lowercase();
        match name.as_str() {
            "host" => {
                hosts += 1;
                name = ":authority".to_owned();
            }
            "content-length" if is_length(&value) => lengths += 1,
            "content-length" | "transfer-encoding" => return None,
            _ => {}
        }
        headers.push((name, value));
    }
    if hosts != 1 || lengths > 1 {
        return None;
    }
    headers.push((":method".to_owned(), method.to_owned()));
    headers.push((":path".to_owned(), target.to_owned()));
    headers.push((":scheme".to_owned(), "http".to_owned()));
    headers.sort_by(|a, b| a.0.cmp(&b.0));
    headers.dedup_by(|next, last| {
        let is_same = next.0 == last.0;
        if is_same {
            last.1.push(',');
            last.1.push_str(&next.1);
        }
        is_same
    });
    if headers.iter().any(|(name, value)| name.len() > MOST_NAME || value.len() > MOST_VALUE) {
        return None;
    }
    Some(Request {
        method: method.to_owned(),
        target: target.to_owned(),
        path_length: target.find(['?', '#']).unwrap_or(target.len()),
        is_http11: head.version? == 1,
        field_lines,
        headers,
    })
}

unsafe fn bytes_at<'a>(start: *const u8, length: usize) -> &'a [u8] {
    std::slice::from_raw_parts(start, length)
}

/// Heads parsed by httparse alone: the sum of their bytes.
#[no_mangle]
pub unsafe extern "C" fn rust_httparse(start: *const u8, length: usize, rounds: u64) -> u64 {
    let bytes = bytes_at(start, length);
    let mut sum = 0;
    for _ in 0..rounds {
        let mut fields = [httparse::EMPTY_HEADER; MOST_FIELDS];
        let mut head = httparse::Request::new(&mut fields);
        if let Ok(httparse::Status::Complete(length)) = head.parse(black_box(bytes)) {
            black_box(&head);
            sum += length as u64;
        }
    }
    sum
}

/// Heads read to requests: the sum of their field lines.
#[no_mangle]
pub unsafe extern "C" fn rust_head(start: *const u8, length: usize, rounds: u64) -> u64 {
    let bytes = bytes_at(start, length);
    let mut sum = 0;
    for _ in 0..rounds {
        if let Some(request) = read_request(black_box(bytes)) {
            sum += black_box(&request).field_lines as u64;
        }
    }
    sum
}
