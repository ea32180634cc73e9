"""Header blocks for scripts/serve/try_http2: the examples of RFC 7541, and random blocks of python3-hpack."""
import hpack

WWW, DATE = "www.example.com", "Mon, 21 Oct 2013 20:13:21 GMT"
LOCATION, LATER = "https://www.example.com", "Mon, 21 Oct 2013 20:13:22 GMT"
COOKIE = "foo=ASDJKHQKBZXOQWEOPIUAXQWEOIU; max-age=3600; version=1"
REQUESTS = (
    ([(":method", "GET"), (":scheme", "http"), (":path", "/"), (":authority", WWW)], [(":authority", WWW)], 57),
    ([(":method", "GET"), (":scheme", "http"), (":path", "/"), (":authority", WWW), ("cache-control", "no-cache")],
     [("cache-control", "no-cache"), (":authority", WWW)], 110),
    ([(":method", "GET"), (":scheme", "https"), (":path", "/index.html"), (":authority", WWW), ("custom-key", "custom-value")],
     [("custom-key", "custom-value"), ("cache-control", "no-cache"), (":authority", WWW)], 164),
)
RESPONSES = (
    ([(":status", "302"), ("cache-control", "private"), ("date", DATE), ("location", LOCATION)],
     [("location", LOCATION), ("date", DATE), ("cache-control", "private"), (":status", "302")], 222),
    ([(":status", "307"), ("cache-control", "private"), ("date", DATE), ("location", LOCATION)],
     [(":status", "307"), ("location", LOCATION), ("date", DATE), ("cache-control", "private")], 222),
    ([(":status", "200"), ("cache-control", "private"), ("date", LATER), ("location", LOCATION), ("content-encoding", "gzip"),
      ("set-cookie", COOKIE)], [("set-cookie", COOKIE), ("content-encoding", "gzip"), ("date", LATER)], 215),
)
# appendix C: each row's name, the table's greatest size, and the blocks, with their fields, and the table and its size after each
EXAMPLES = (
    ("C.2.1", 4096, ["400a637573746f6d2d6b65790d637573746f6d2d686561646572"],
     (([("custom-key", "custom-header")], [("custom-key", "custom-header")], 55),)),
    ("C.2.2", 4096, ["040c2f73616d706c652f70617468"], (([(":path", "/sample/path")], [], 0),)),
    ("C.2.3", 4096, ["100870617373776f726406736563726574"], (([("password", "secret")], [], 0),)),
    ("C.2.4", 4096, ["82"], (([(":method", "GET")], [], 0),)),
    ("C.3", 4096, ["828684410f7777772e6578616d706c652e636f6d", "828684be58086e6f2d6361636865",
                   "828785bf400a637573746f6d2d6b65790c637573746f6d2d76616c7565"], REQUESTS),
    ("C.4", 4096, ["828684418cf1e3c2e5f23a6ba0ab90f4ff", "828684be5886a8eb10649cbf",
                   "828785bf408825a849e95ba97d7f8925a849e95bb8e8b4bf"], REQUESTS),
    ("C.5", 256, ["4803333032580770726976617465611d4d6f6e2c203231204f637420323031332032303a31333a323120474d546e17"
                  "68747470733a2f2f7777772e6578616d706c652e636f6d", "4803333037c1c0bf",
                  "88c1611d4d6f6e2c203231204f637420323031332032303a31333a323220474d54c05a04677a69707738666f6f3d4153444a4b48"
                  "514b425a584f5157454f50495541585157454f49553b206d61782d6167653d333630303b2076657273696f6e3d31"], RESPONSES),
    ("C.6", 256, ["488264025885aec3771a4b6196d07abe941054d444a8200595040b8166e082a62d1bff6e919d29ad171863c78f0b97c8e9ae82ae43d3",
                  "4883640effc1c0bf",
                  "88c16196d07abe941054d444a8200595040b8166e084a62d1bffc05a839bd9ab77ad94e7821dd7f2e6c7b335dfdfcd5b3960d5af"
                  "27087f3672c1ab270fb5291f9587316065c003ed4ee5b1063d5007"], RESPONSES),
)


def said_of(pairs):
    """How the program says these fields."""
    return ["fields"] + [f"{bytes(name, 'ascii').hex()}:{bytes(value, 'ascii').hex()}" for name, value in pairs]


def examples(trial):
    """Appendix C: after each block its fields, the table's size, and each entry by its index; the next index is none."""
    ask = trial.program.ask
    for name, most, blocks, wanted in EXAMPLES:
        for count, (_, table, size) in enumerate(wanted, 1):
            trial.program.tell(f"table {most}")
            found = [ask(f"decode {block}") for block in blocks[:count]]
            trial.holds(f"{name}.{count} fields", found == [said_of(fields) for fields, _, _ in wanted[:count]], found)
            trial.holds(f"{name}.{count} size", ask("size") == [str(size)])
            indices = bytes(range(128 + 62, 128 + 62 + len(table)))
            trial.holds(f"{name}.{count} table", not table or ask(f"decode {indices.hex()}") == said_of(table))
            trial.holds(f"{name}.{count} has no more", ask(f"decode {128 + 62 + len(table):02x}")[0].startswith("Compression"))
            trial.counts["blocks of appendix C"] += 1
    integers(trial)


def integers(trial):
    """C.1: 10 and 1337 with five bits, as the table's size, and 42, as the length of a text. No part of a block has eight bits."""
    ask = trial.program.ask
    for octets, size in (("2a", 10), ("3f9a0a", 1337)):
        for length, stays in ((size - 33, True), (size - 32, False)):
            if length < 0:
                continue
            value = b"v" * length
            coded = bytes([length]) if length < 127 else bytes([127, (length - 127) & 127 | 128, (length - 127) >> 7])
            trial.program.tell("table 4096")
            found = ask(f"decode {octets}4001{b'a'.hex()}{coded.hex()}{value.hex()}")
            trial.holds(f"C.1, {size}", found == ["fields", f"61:{value.hex()}"] and ask("size") == [str(size if stays else 0)], length)
    trial.program.tell("table 4096")
    trial.holds("C.1, 10", ask("decode 2a40016100") == ["fields", "61:"] and ask("size") == ["0"])
    trial.holds("C.1, 42", ask(f"decode 0001612a{(b'v' * 42).hex()}") == ["fields", f"61:{(b'v' * 42).hex()}"])
    trial.counts["integers of appendix C"] += 3


def random_field(rng):
    names = [":status", "content-type", "grpc-status", "x-request-id", "cookie", "a", "server", "date"]
    name = rng.choice(names) if rng.random() < 0.7 else "".join(rng.choice("abcdefghij-_") for _ in range(rng.randrange(1, 60)))
    size = rng.choice([0, 1, 5, 20, 60, 300])
    value = bytes(rng.randrange(256) for _ in range(size)) if rng.random() < 0.5 else rng.choice([b"200", b"text/html", b"0", b"gzip"])
    return name.encode(), value


def blocks(trial):
    """Header blocks, both ways, as many as there are rounds: on connections of 50 blocks, each of which ends with a spoilt one."""
    examples(trial)
    done = 0
    while done < trial.rounds:
        trial.program.tell("table 4096")
        encoder, decoder = hpack.Encoder(), hpack.Decoder(max_header_list_size=1 << 20)
        for _ in range(min(50, trial.rounds - done)):
            block = one_block(trial, encoder, decoder)
            done += 1
        if block:
            at = trial.rng.randrange(len(block))
            spoils(trial, block[:at] + bytes([trial.rng.randrange(256)]) + block[at + 1:])


def one_block(trial, encoder, decoder):
    """A random block of python3-hpack, which the program decodes, and the program's of the same fields, which python3-hpack decodes."""
    rng, counts = trial.rng, trial.counts
    if rng.random() < 0.1:
        encoder.header_table_size = rng.choice([0, 40, 100, 1000, 4096])
        counts["changes of the table's size"] += 1
    given = [random_field(rng) for _ in range(rng.randrange(8))]
    is_coded, entries = rng.random() < 0.7, len(encoder.header_table.dynamic_entries)
    block = encoder.encode([hpack.NeverIndexedHeaderTuple(*it) if rng.random() < 0.1 else it for it in given], huffman=is_coded)
    counts["blocks by Huffman's code"] += is_coded
    counts["blocks on a table with entries"] += entries > 0
    wanted = ["fields"] + [f"{name.hex()}:{value.hex()}" for name, value in given]
    trial.holds("decoded block", trial.program.ask(f"decode {block.hex()}") == wanted, block.hex())
    said = trial.program.ask("encode " + ",".join(wanted[1:]))
    read = decoder.decode(bytes.fromhex(said[0]) if said else b"", raw=True)
    trial.holds("encoded block", [tuple(it) for it in read] == given, said)
    counts["blocks decoded"] += 1
    counts["blocks encoded"] += 1
    return block


def spoils(trial, block):
    """A block that may be broken, on a table that has no entries: both say so, or give the same fields."""
    trial.program.tell("table 4096")
    said = trial.program.ask(f"decode {block.hex()}")
    try:
        wanted = ["fields"] + [f"{name.hex()}:{value.hex()}" for name, value in hpack.Decoder(max_header_list_size=1 << 20).decode(block, raw=True)]
    except (hpack.HPACKError, UnicodeDecodeError):
        wanted = None
    trial.holds("spoilt block", said == wanted or (wanted is None and said[0].startswith("Compression")), (block.hex(), said, wanted))
    trial.counts["spoilt blocks"] += 1
