"""Reads a CheckRequest by Envoy's public protos, apart from the crate: what it asks, or each fault that it has."""
import ipaddress

HTTP_FIELDS = {"method": 2, "headers": 3, "path": 4, "host": 5, "scheme": 6, "protocol": 10, "header_map": 13}
PROTOCOLS = (b"HTTP/1.0", b"HTTP/1.1", b"HTTP/2", b"HTTP/3")


class Broken(Exception):
    """The bytes are not a list of whole fields."""


def varint(data, at):
    value = 0
    for count in range(10):
        if at == len(data) or (count == 9 and data[at] > 1):
            raise Broken
        value |= (data[at] & 127) << 7 * count
        at += 1
        if data[at - 1] < 128:
            return value, at
    raise Broken


def fields(data):
    """The fields, each as its number, its wire type and its value."""
    found, at = [], 0
    while at < len(data):
        tag, at = varint(data, at)
        number, kind = tag >> 3, tag & 7
        if not 0 < number < 1 << 29 or kind not in (0, 1, 2, 5):
            raise Broken
        if kind == 0:
            value, at = varint(data, at)
        else:
            size, at = varint(data, at) if kind == 2 else ({1: 8, 5: 4}[kind], at)
            value = data[at:at + size]
            if len(value) < size:
                raise Broken
            at += size
        found.append((number, kind, value))
    return found


def texts(message, number):
    return [value for one, kind, value in message if one == number and kind == 2]


def last(message, number):
    return (texts(message, number) or [b""])[-1]


def is_text(data):
    try:
        data.decode()
        return True
    except UnicodeDecodeError:
        return False


def ip_of(text):
    """The address in its one form, as the program prints it; None for another text."""
    try:
        text = text.decode("ascii")
        if "." in text:
            return f"4:{int(ipaddress.IPv4Address(text))}"
        if "%" in text:
            return None
        number = int(ipaddress.IPv6Address(text))
        return f"4:{number & 0xffffffff}" if number >> 32 == 0xffff else f"6:{number}"
    except ValueError:
        return None


class Reading:
    """What a message asks, as the line that the program prints, and the faults that it has."""

    def __init__(self, name, data):
        self.name, self.faults, self.line = name, set(), None
        check = self.merged([data], "Whole")
        context = self.inner(check, 1, "Attributes")
        if context is not None:
            self.read(context)

    def fault(self, part, refusal):
        self.faults.add(f"{part} {refusal}")

    def merged(self, parts, part):
        try:
            return [one for data in parts for one in fields(data)]
        except Broken:
            self.fault(part, "BadWire")
            return None

    def inner(self, message, number, part):
        return None if message is None else self.merged(texts(message, number), part)

    def text(self, message, number, part):
        if message is None:
            return b""
        found = last(message, number)
        if not is_text(found):
            self.fault(part, "BadText")
        return found

    def entries(self, parts, part):
        """A map of strings; the last entry of a key counts."""
        found = {}
        for data in parts:
            entry = self.merged([data], part)
            if entry is None:
                continue
            if any(kind != 2 or number not in (1, 2) for number, kind, _ in entry):
                self.fault(part, "UnknownField")
            if not is_text(last(entry, 1)):
                self.fault(part, "BadText")
            found[last(entry, 1)] = last(entry, 2)
        return sorted(found.items())

    def end(self, peer, side):
        """The address and port, the port, and the number of the address of one end."""
        address = self.inner(peer, 1, f"Address({side})")
        members = [(number, value) for number, kind, value in address or [] if kind == 2 and number in (1, 2, 3)]
        parts = []
        while members and members[-1][0] == 1:
            parts.insert(0, members.pop()[1])
        if not parts:
            return None
        socket = self.merged(parts, f"Address({side})")
        if socket is None:
            return None
        host = self.text(socket, 2, f"Host({side})")
        ip = ip_of(host)
        if ip is None and is_text(host):
            self.fault(f"Host({side})", "OutOfRange")
        return host, self.port(socket, side), ip

    def port(self, socket, side):
        numbers = [number for number, kind, _ in socket if (number, kind) in ((3, 0), (4, 2))]
        if not numbers or numbers[-1] != 3:
            return self.fault(f"Port({side})", "Missing")
        port = [value for number, kind, value in socket if (number, kind) == (3, 0)][-1] & 0xffffffff
        if port > 65535:
            self.fault(f"Port({side})", "OutOfRange")
        return port

    def lines(self, http):
        raw = texts(http, HTTP_FIELDS["header_map"])
        if not raw:
            sent = self.entries(texts(http, HTTP_FIELDS["headers"]), "Headers")
        else:
            sent = []
            for place, data in enumerate(texts(self.merged(raw, "HeaderMap") or [], 1)):
                header = self.merged([data], f"Header({place})") or []
                sent.append((last(header, 1), last(header, 3) or last(header, 2)))
        host = last(http, HTTP_FIELDS["host"])
        return [line for line in sent if not line[0].startswith(b":")] + ([(b":authority", host)] if host else [])

    def read(self, context):
        http = self.inner(self.inner(context, 4, "Request"), 2, "Http")
        source, destination = self.inner(context, 1, "Peer(Source)"), self.inner(context, 2, "Peer(Destination)")
        session = self.inner(context, 12, "Session")
        ends = self.end(source, "Source"), self.end(destination, "Destination")
        principal = self.text(source, 4, "Principal")
        server = self.text(session, 1, "ServerName")
        filters = dict(self.entries(texts(context, 10), "Extensions")).get(b"filters")
        if filters is not None and not is_text(filters):
            self.fault("Filters", "BadText")
        if http is None:
            return
        protocol, scheme = last(http, HTTP_FIELDS["protocol"]), self.text(http, HTTP_FIELDS["scheme"], "Scheme")
        if protocol not in PROTOCOLS:
            self.fault("Protocol", "OutOfRange")
        if is_text(scheme) and scheme not in (b"http", b"https"):
            self.fault("Scheme", "OutOfRange")
        lines = self.lines(http)
        if not self.faults:
            facts = [shown(scheme), *shown_end(ends[0]), *shown_end(ends[1]), "mtls" if principal else "-",
                     shown(lower(server) or None), *self.names(principal), "-", "-", "-"]
            words = ["ok", protocol.decode(), shown(last(http, 2)), shown(last(http, 4)), *facts, shown(filters)]
            self.line = " ".join(words + [shown(part) for line in lines for part in line])

    def names(self, principal):
        return [shown(principal) if principal and self.name == name else "-" for name in ("uri", "dns", "subject")]


def lower(text):
    return bytes(byte + 32 if 65 <= byte <= 90 else byte for byte in text)


def shown(text):
    return "-" if text is None else "+" + text.hex()


def shown_end(end):
    if end is None:
        return "-", "-", "-"
    host, port, ip = end
    text = (host if b"." in host else b"[" + host + b"]") + b":%d" % (port or 0)
    return shown(text), str(port), str(ip)
