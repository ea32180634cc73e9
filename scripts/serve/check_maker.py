"""Makes CheckRequests by Envoy's public protos, apart from the crate: sound ones, and such as have faults."""

NAMES = [b"accept", b"user-agent", b"x-a", b"cookie", b"host", b":method", b":path", b":authority", b"", b"X-B", b"te"]
VALUES = [b"", b"1", b"a b", b"\xff", "ä".encode(), b"gzip, br", b"x" * 200]
ADDRESSES = [b"10.0.0.1", b"192.168.7.255", b"::1", b"2001:db8::7", b"::ffff:a00:1", b"::ffff:10.0.0.1", b"1.2.3", b"01.2.3.4",
             b"", b"localhost", b"fe80::1%eth0", b"\xff", b"1:2:3:4:5:6:7::", b"1:2:3:4:5:6:7:8:9", b"::FFFF:1:2"]
PRINCIPALS = [b"", b"spiffe://a/b", b"host.example", b"CN=a", b"\xc3"]
FILTERS = [b"a", b"", b"a,b", b"\xff\xfe"]


def varint(number):
    made = b""
    while number > 127:
        made += bytes([number % 128 + 128])
        number //= 128
    return made + bytes([number])


def number(field, value):
    return varint(field * 8) + varint(value)


def text(field, value):
    return varint(field * 8 + 2) + varint(len(value)) + value


class Maker:
    """Messages by a source of random numbers. `odd` is how likely each odd thing is."""

    def __init__(self, random, odd):
        self.random, self.odd = random, odd

    def is_odd(self):
        return self.random.random() < self.odd

    def one(self, good, all_of):
        return self.random.choice(all_of) if self.is_odd() else self.random.choice(good)

    def message(self, parts):
        """The fields of a message, now and then in another order, with unknown ones, or twice."""
        parts = list(parts)
        if self.is_odd():
            parts.append(self.random.choice([number(15, 7), text(99, b"abc"), varint(77 * 8 + 1) + bytes(8),
                                             varint(78 * 8 + 5) + bytes(4), number(2, 3), text(3, b"no")]))
        if self.is_odd():
            self.random.shuffle(parts)
        if self.is_odd() and parts:
            parts.append(self.random.choice(parts))
        return b"".join(parts)

    def put(self, field, parts):
        """A field that is a message, now and then in two payloads, or with bytes that are none."""
        parts = list(parts)
        if self.is_odd():
            cut = self.random.randrange(len(parts) + 1)
            return text(field, self.message(parts[:cut])) + text(field, self.message(parts[cut:]))
        made = self.message(parts)
        if self.random.random() < self.odd / 6:
            made = made[:-1] if made else b"\x00"
        return text(field, made)

    def entry(self, field, key, value):
        parts = [text(1, key), text(2, value)]
        if self.random.random() < self.odd / 4:
            parts.append(number(9, 1))
        if self.random.random() < self.odd / 2:
            parts.pop(self.random.randrange(2))
        return text(field, b"".join(parts))

    def header(self):
        key, value = self.one(NAMES[:4], NAMES), self.one(VALUES[:3], VALUES)
        parts = [text(1, key), text(self.random.choice((2, 3)), value)]
        return self.put(1, parts + ([text(3, b"raw")] if self.is_odd() else []))

    def peer(self, field, principal):
        port = self.one([80, 443, 65535], [0, 65536, 1 << 32 | 80, 1 << 40])
        socket = [number(1, 0), text(2, self.one(ADDRESSES[:5], ADDRESSES)), number(3, port)]
        if self.is_odd():
            socket.append(text(4, b"http"))
        if self.is_odd():
            socket.pop(self.random.randrange(len(socket)))
        address = [self.put(1, socket)] if not self.is_odd() else []
        address += [text(2, b"\x0a\x01p")] if self.is_odd() else []
        parts = [self.put(1, address)] if address else []
        return self.put(field, parts + [text(4, principal)])

    def http(self):
        get = self.random.choice
        parts = [text(1, b"7"), text(2, get((b"GET", b"POST"))), text(4, get((b"/", b"/a?b=c"))), text(5, self.one([b"a.example"], [b""])),
                 text(6, self.one([b"http", b"https"], [b"", b"ftp", b"HTTP"])), number(9, 1 << 64 - 1),
                 text(10, self.one([b"HTTP/1.1", b"HTTP/2"], [b"HTTP/1.0", b"HTTP/3", b"", b"HTTP/2.0"]))]
        parts += [self.entry(3, self.one(NAMES[:4], NAMES), self.one(VALUES[:3], VALUES)) for _ in range(self.random.randrange(5))]
        if self.random.random() < 0.4:
            parts.append(self.put(13, [self.header() for _ in range(self.random.randrange(5))]))
        return self.put(2, parts)

    def check(self):
        """A CheckRequest, now and then with bytes changed or cut."""
        parts = [self.peer(1, self.one(PRINCIPALS[:4], PRINCIPALS)), self.peer(2, b""), self.put(4, [text(1, b"\x08\x01"), self.http()])]
        if self.random.random() < 0.5:
            key = self.one([b"filters"], [b"other", b"", b"\xff"])
            parts.append(self.entry(10, key, self.one(FILTERS[:3], FILTERS)))
        if self.random.random() < 0.5:
            parts.append(self.put(12, [text(1, self.one([b"a.example", b"A.Example"], [b"", b"\xff"]))]))
        made = bytearray(self.put(1, parts))
        while made and self.is_odd() and self.is_odd():
            made[self.random.randrange(len(made))] = self.random.randrange(256)
        return bytes(made[:self.random.randrange(len(made) + 1)] if self.random.random() < self.odd / 10 else made)
