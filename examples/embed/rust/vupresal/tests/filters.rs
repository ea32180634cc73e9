//! The filters of the folder examples, whose path is in VUPRESAL_EXAMPLES.
use std::net::{IpAddr, SocketAddr};
use std::path::PathBuf;
use std::thread;
use vupresal::{Bounds, Connection, Decision, Error, Facts, Filter, FilterSet, Options, Protocol, Request, SetDecision};

const HOST: [(&str, &str); 1] = [("Host", "h")];

fn example(name: &str) -> Vec<u8> {
    let folder =
        std::env::var_os("VUPRESAL_EXAMPLES").map_or_else(|| PathBuf::from(env!("CARGO_MANIFEST_DIR")).join("../../.."), PathBuf::from);
    std::fs::read(folder.join(name)).expect("the example is read")
}

fn filter_of(name: &str) -> Filter {
    Filter::admit(&example(name), &Options::default()).expect("the filter is admitted")
}

fn said(filter: &mut Filter, target: &str) -> (bool, Option<String>) {
    let found = filter.decide(&Request::get(target, &HOST), &Facts::default()).expect("a decision");
    let head = format!("GET {} HTTP/1.1\r\nHost: h\r\n\r\n", target);
    assert_eq!(filter.decide_head(head.as_bytes(), &Facts::default()), Ok(found));
    (found.allowed, found.policy.and_then(|number| filter.policy_name(number)))
}

#[test]
fn decisions() {
    let readers = Some(String::from("readers"));
    let first = Some(String::from("p"));
    for (name, target, wanted) in [
        ("condition.bin", "/", (true, readers.clone())),
        ("condition.bin", "/about", (true, readers)),
        ("condition.bin", "/admin", (false, None)),
        ("any_any.bin", "/admin", (true, first.clone())),
        ("deny_any.bin", "/", (false, first)),
    ] {
        assert_eq!(said(&mut filter_of(name), target), wanted, "{} of {}", target, name);
    }
}

#[test]
fn requests_without_a_decision() {
    let mut filter = filter_of("any_any.bin");
    let long = format!("/{}", "a".repeat(4096));
    let many = [("x", "v"); 70];
    let none: [(&str, &str); 0] = [];
    for (method, target, lines, wanted) in [
        ("", "/", &HOST[..], Error::BadRequest),
        ("GET", "x", &HOST[..], Error::BadRequest),
        ("GET", "/", &none[..], Error::BadRequest),
        ("GET", "/", &[("host", "h"), ("host", "i")][..], Error::BadRequest),
        ("GET", "/", &[("host", "h"), ("x", "a\nb")][..], Error::BadRequest),
        ("GET", "/", &many[..], Error::OutsideLimits),
        ("GET", &long, &HOST[..], Error::OutsideLimits),
        ("GET", "/", &[("host", "h"), ("Transfer-Encoding", "chunked")][..], Error::TransferCoding),
    ] {
        let request = Request { method, target, lines, protocol: Protocol::Http11 };
        assert_eq!(filter.decide(&request, &Facts::default()), Err(wanted), "{} {} {:?}", method, target, lines);
    }
    let bytes: [(&[u8], &[u8]); 2] = [(b"host", b"h"), (b"x", b"\xff")];
    assert_eq!(filter.decide(&Request::get("/", &bytes), &Facts::default()), Err(Error::BadRequest));
    assert_eq!(filter.decide_head(b"GET / HTTP/1.1\r\n", &Facts::default()), Err(Error::BadRequest));
    assert_eq!(Error::OutsideLimits.http_status(), 431);
    let old = Request { method: "GET", target: "/", lines: &none[..], protocol: Protocol::Http10 };
    assert!(filter.decide(&old, &Facts::default()).expect("HTTP/1.0 needs no host").allowed);
}

#[test]
fn facts_of_each_form() {
    let mut filter = filter_of("any_any.bin");
    let facts = Facts {
        scheme: String::from("https"),
        source: Some(SocketAddr::from(([0, 0, 0, 0, 0, 0xffff, 0x7f00, 1], 1))),
        destination: Some(SocketAddr::from(([127, 0, 0, 1], 65535))),
        direct_remote_ip: Some(IpAddr::from([10, 0, 0, 1])),
        remote_ip: Some(IpAddr::from([0, 0, 0, 0, 0, 0, 0, 1])),
        tls_version: Some(String::from("TLSv1.3")),
        mtls: Some(true),
        connection_id: Some(u64::MAX),
        ..Facts::default()
    };
    assert_eq!(filter.decide(&Request::get("/", &HOST), &facts), Ok(Decision { allowed: true, policy: Some(0) }));
    let long = Facts { tls_version: Some("a".repeat(65_537)), ..Facts::default() };
    assert_eq!(filter.decide(&Request::get("/", &HOST), &long), Err(Error::BadRequest));
}

#[test]
fn protocols() {
    // allowed is what the condition `request.protocol == "HTTP/2"` allows
    let text = "0a4a12480a017012430a02180112021801223922371003323312045f3d3d5f1a1d10022a190a0d100122090a0772657175657374120870726f746f636f6c1a0c10041a083206";
    let mut message: Vec<u8> = (0..text.len() / 2).map(|at| u8::from_str_radix(&text[2 * at..2 * at + 2], 16).expect("a byte")).collect();
    message.extend(b"HTTP/2");
    let mut filter = Filter::admit(&message, &Options::default()).expect("the filter is admitted");
    for (protocol, wanted) in [(Protocol::Http10, false), (Protocol::Http11, false), (Protocol::Http2, true), (Protocol::Http3, false)] {
        let request = Request { protocol, ..Request::get("/", &HOST) };
        assert_eq!(filter.decide(&request, &Facts::default()).map(|it| it.allowed), Ok(wanted), "{:?}", protocol);
    }
}

#[test]
fn refusals() {
    let small = Options { budget: 1, ..Options::default() };
    let refused = Filter::admit(&example("condition.bin"), &small).err().expect("it is refused");
    assert_eq!((refused.status(), refused.place()), (15, "policy \"readers\": checked_condition"));
    for (message, status) in [(&b""[..], 4), (&b"\x0a\xff"[..], 1)] {
        assert_eq!(Filter::admit(message, &Options::default()).err().map(|it| it.status()), Some(status));
    }
    for options in [
        Options { budget: 0, ..Options::default() },
        Options { visits: 1 << 63, ..Options::default() },
        Options { bounds: Bounds { fields: 1, ..Bounds::default() }, ..Options::default() },
    ] {
        assert_eq!(Filter::admit(&example("any_any.bin"), &options).err().map(|it| it.status()), Some(-2), "{:?}", options);
    }
}

#[test]
fn smaller_bounds() {
    let bounds = Bounds { fields: 10, name: 64, value: 100, method: 32, target: 20, text: 100 };
    let options = Options { bounds, ..Options::default() };
    let mut less = Filter::admit(&example("condition.bin"), &options).expect("the filter is admitted");
    assert!(less.bound() < filter_of("condition.bin").bound());
    let target = "/a".repeat(10) + "a";
    assert_eq!(less.decide(&Request::get(&target, &HOST), &Facts::default()), Err(Error::OutsideLimits));
}

/// A filter that denies each request with a field cookie, which its message names Cookie.
const DENY_COOKIE: &[u8] = b"\n\x1b\x08\x01\x12\x17\n\x01p\x12\x12\n\x0c\x22\n\n\x06Cookie8\x01\x12\x02\x18\x01";

fn ignoring(message: &[u8], ignore: &[&str]) -> Filter {
    Filter::admit(message, &Options { ignore, ..Options::default() }).expect("the filter is admitted")
}

/// The status that a server would answer with, by the parts and by the head.
fn answered(filter: &mut Filter, lines: &[(&str, &str)]) -> u16 {
    let status = |found: Result<Decision, Error>| found.map_or_else(Error::http_status, |it| if it.allowed { 200 } else { 403 });
    let by_parts = status(filter.decide(&Request::get("/", lines), &Facts::default()));
    let fields: String = lines.iter().map(|(name, value)| format!("{}: {}\r\n", name, value)).collect();
    let head = format!("\r\n\nGET / HTTP/1.1\r\n{}\r\n", fields);
    for text in [head.clone(), head.replace("\r\n", "\n")] {
        assert_eq!(status(filter.decide_head(text.as_bytes(), &Facts::default())), by_parts, "{:?}", lines);
    }
    by_parts
}

#[test]
fn ignored_fields() {
    let (every, long) = (example("any_any.bin"), "c".repeat(5000));
    let long = long.as_str();
    let mut many = vec![("x", "v"); 60];
    many.extend([("cookie", ""), ("cookie", ""), ("host", "h")]);
    for (message, ignore, lines, wanted) in [
        (&every[..], &[][..], &[("Cookie", long)][..], 431),
        (&every, &["cookie"], &[("Cookie", long)], 200),
        (&every, &["COOkie"], &[("cooKIE", long), ("COOKIE", long)], 200),
        (&every, &["cookie"], &[("Cookie", long), ("Cookie2", long)], 431),
        (&every, &["cookie2"], &[("Cookie", long)], 431),
        (&every, &["cookie"], &many[..62], 200),
        (&every, &["cookie2"], &many[..62], 431),
        (&every, &["transfer-encoding"], &[("Transfer-Encoding", "chunked")], 200),
        (&every, &["x"], &[("Transfer-Encoding", "chunked")], 501),
        (DENY_COOKIE, &[], &[("cookie", "a")], 403),
        (DENY_COOKIE, &[], &[], 200),
        (DENY_COOKIE, &["x", "cookie"], &[("cookie", "a")], 200),
        (DENY_COOKIE, &["x"], &[("cookie", "a")], 403),
    ] {
        let mut filter = ignoring(message, ignore);
        let with_host: Vec<_> = HOST.iter().chain(lines).copied().collect();
        assert_eq!(answered(&mut filter, &with_host), wanted, "{:?}", ignore);
        assert_eq!(answered(&mut filter.share().expect("memory"), &with_host), wanted, "{:?}, shared", ignore);
    }
}

#[test]
fn ignored_lines_of_a_head() {
    // what is no whole line of an ignored name stays, so the head has the same fault
    let mut filter = ignoring(&example("any_any.bin"), &["cookie"]);
    for (head, wanted) in [
        (&b"GET / HTTP/1.1\r\nCookie: a\r\nHost: h\r\nCOOKIE:b\r\ncookie:\r\n\r\n"[..], true),
        (b"GET / HTTP/1.1\r\nHost: h\r\nCookie: \xff\t\r\n\r\n", true),
        (b"GET / HTTP/1.1\r\nHost: h\r\nCookie : a\r\n\r\n", false),
        (b"GET / HTTP/1.1\r\nHost: h\r\nCookie: a\r\n b\r\n\r\n", false),
        (b"GET / HTTP/1.1\r\nHost: h\r\nCookie: a\0\r\n\r\n", false),
        (b"GET / HTTP/1.1\r\nHost: h\r\nCookie: a\rb\r\n\r\n", false),
        (b"GET / HTTP/1.1\r\nHost: h\r\nCookie: a\r\r\n\r\n", false),
        (b"GET / HTTP/1.1\r\nHost: h\r\nCookie\r\n\r\n", false),
        (b"GET / HTTP/1.1\r\nHost: h\r\nCookie: a", false),
        (b"Cookie: a\r\nGET / HTTP/1.1\r\nHost: h\r\n\r\n", false),
        (b"\r\nCookie: a\r\nGET / HTTP/1.1\r\nHost: h\r\n\r\n", false),
        (b"", false),
    ] {
        let found = filter.decide_head(head, &Facts::default());
        assert_eq!(
            found.map(|it| it.allowed),
            if wanted { Ok(true) } else { Err(Error::BadRequest) },
            "{:?}",
            String::from_utf8_lossy(head)
        );
    }
}

#[test]
fn ignored_names() {
    for (name, fault) in [
        ("", "is not the name of a field"),
        ("a b", "is not the name of a field"),
        ("a:", "is not the name of a field"),
        ("\u{e9}", "is not the name of a field"),
        ("coo\u{212a}ie", "is not the name of a field"),
        (":path", "is no field"),
        (":authority", "is no field"),
        ("host", "cannot be ignored"),
        ("HOST", "cannot be ignored"),
    ] {
        let ignore = ["cookie", name];
        let refused =
            Filter::admit(&example("any_any.bin"), &Options { ignore: &ignore, ..Options::default() }).err().expect("it is refused");
        assert_eq!(refused.status(), -2);
        assert!(refused.to_string().contains(fault), "{:?}: {}", name, refused);
    }
    for (ignore, wanted) in [(&[][..], &[][..]), (&["x", "COOKIE"], &["cookie"]), (&["ookie", "cooki", "!#$%&'*+-.^_`|~09azAZ"], &[])] {
        assert_eq!(ignoring(DENY_COOKIE, ignore).may_read_ignored(), wanted);
    }
}

#[test]
fn threads_share_a_filter() {
    let mut first = filter_of("condition.bin");
    let threads: Vec<_> = (0..4)
        .map(|_| {
            let mut own = first.share().expect("memory");
            thread::spawn(move || (0..200).all(|_| said(&mut own, "/").0 && !said(&mut own, "/admin").0))
        })
        .collect();
    drop(first);
    for each in threads {
        assert!(each.join().expect("the thread ends"));
    }
}

#[test]
fn names_by_number() {
    let mut filter = filter_of("condition.bin");
    assert_eq!((filter.policies(), filter.policy_name(0).as_deref(), filter.policy_name(1)), (1, Some("readers"), None));
    let _ = vupresal::is_proved();
}

#[test]
fn requests_that_are_made_once() {
    let mut connection = Connection::new(&Facts::default()).expect("a connection");
    let mut filters: Vec<Filter> = ["any_any.bin", "condition.bin", "deny_any.bin"].iter().map(|name| filter_of(name)).collect();
    for (target, wanted) in [("/", [true, true, false]), ("/admin", [true, false, false])] {
        let head = format!("GET {} HTTP/1.1\r\nHost: h\r\n\r\n", target);
        let of_parts = connection.request(&Request::get(target, &HOST)).expect("a request");
        let of_head = connection.head(head.as_bytes()).expect("a request");
        for mut made in [of_parts, of_head] {
            for (filter, wanted) in filters.iter_mut().zip(wanted) {
                assert_eq!(filter.decide_request(&mut made).expect("a decision").allowed, wanted);
            }
        }
    }
    assert_eq!(connection.request(&Request::get("x", &HOST)).err(), Some(Error::BadRequest));
    assert_eq!(connection.head(b"GET / HTTP/1.1\r\n").err(), Some(Error::BadRequest));
    assert_eq!(connection.request(&Request::get(&"/".repeat(5000), &HOST)).err(), Some(Error::OutsideLimits));
}

#[test]
fn made_requests_keep_ignored_fields() {
    let long = "c".repeat(5000);
    let lines = [HOST[0], ("cookie", long.as_str())];
    let request = Request::get("/", &lines);
    assert!(ignoring(&example("any_any.bin"), &["cookie"]).decide(&request, &Facts::default()).expect("a decision").allowed);
    let mut connection = Connection::new(&Facts::default()).expect("a connection");
    assert_eq!(connection.request(&request).err(), Some(Error::OutsideLimits));
}

#[test]
fn sets() {
    let mut connection = Connection::new(&Facts::default()).expect("a connection");
    let mut set = FilterSet::new();
    let mut made = connection.request(&Request::get("/admin", &HOST)).expect("a request");
    drop(connection);
    assert_eq!(set.decide(&mut made), Err(Error::Other(-1)));
    for (name, wanted) in [
        ("any_any.bin", SetDecision { decision: Decision { allowed: true, policy: Some(0) }, filter: 0 }),
        ("condition.bin", SetDecision { decision: Decision { allowed: false, policy: None }, filter: 1 }),
        ("any_any.bin", SetDecision { decision: Decision { allowed: false, policy: None }, filter: 1 }),
    ] {
        set.add(&mut filter_of(name)).expect("memory");
        assert_eq!(set.decide(&mut made), Ok(wanted));
    }
}
