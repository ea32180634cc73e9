"""Tests: what a proxy or a control plane that means harm can take: memory, places, time, and lines of the log."""
import asyncio

from control import RESOURCE, Control, Request, Response
from proxies import Bridge
from relaying import FIRST, joined

# MiB that the bridge may take, and how many proxies do not read
MOST, UNREAD = 128, 30


async def a_bridge(trial, *words, before=()):
    control = Control()
    await control.start()
    trial.ends.push_async_callback(control.stop)
    bridge = await Bridge.start(trial.place("tcp"), control.port, *words, before=before)
    trial.ends.push_async_callback(bridge.end)
    return control, bridge


async def flood(stream, size):
    """Sends messages of a size for as long as they are taken."""
    message = Response(type_url="a" * (size - 4))
    while True:
        await stream.send(message)


async def drink(proxy):
    """Reads all that comes."""
    while await proxy.reader.read(1 << 20):
        pass


async def bounds_memory(trial, size, seconds):
    """The bridge's memory once proxies have read for some seconds, and then read nothing of what goes on coming."""
    control, bridge = await a_bridge(trial)
    tasks, proxies = [], [await bridge.connect() for _ in range(UNREAD)]
    for proxy in proxies:
        await proxy.send(Request(type_url=RESOURCE))
        tasks.append(asyncio.ensure_future(flood(await control.next(), size)))
    if seconds:
        readers = [asyncio.ensure_future(drink(proxy)) for proxy in proxies]
        await asyncio.sleep(seconds)
        for it in readers:
            it.cancel()
    await asyncio.sleep(4)
    trial.same(f"its memory in MiB after messages of {size} bytes", bridge.memory(), None, below=MOST)
    for it in tasks:
        it.cancel()


async def bounds_unread_streams(trial):
    """Proxies that never read, while the control plane sends messages of 1 MiB."""
    await bounds_memory(trial, 1 << 20, 0)


async def bounds_streams_that_were_read(trial):
    """Proxies that read, so that a window which follows the speed would grow, and that then stop."""
    await bounds_memory(trial, 60_000, 4)


async def escapes_texts(trial):
    """The control plane's text is one line of the log, of bounded length, and commands no terminal."""
    control, bridge, proxy, stream = await joined(trial)
    said = [("a\nbridge: proxy 9: connected\r\x1b[2J\x07\x7f", r"a\nbridge: proxy 9: connected\r\x1b[2J\x07\x7f"),
            ("\x85\x9b2J\u202eab\u2066\u200f\u2028\u2029\ufeff", r"\x85\x9b2J\u202eab\u2066\u200f\u2028\u2029\ufeff"),
            ("\\n \u00e9\u4e2d", "\\\\n \u00e9\u4e2d"), ("x" * 3000, "x" * 256 + "..."), ("x" * 250 + "\u202e" * 9, "x" * 250 + r"\u202e" + "...")]
    for number, (text, wanted) in enumerate(said, 1):
        stream.end.set_result((control.REFUSED, text))
        trial.same("the proxy's end", await proxy.next(), None)
        line = await bridge.says(f"proxy {number}: closed")
        trial.same(f"the line for {text[:40]!r}", line.partition("PERMISSION_DENIED: ")[2], wanted)
        proxy = await bridge.connect()
        await proxy.send(FIRST)
        stream = await control.next()
    begun = [line for line in bridge.lines if not line.startswith("bridge: ")]
    trial.same("lines that are not its own", begun, [])


async def waits_for_a_first_message(trial):
    """A proxy that sends no whole message is closed; it has no stream at the control plane, and its place is free again."""
    control, bridge = await a_bridge(trial, "--first-message", "2", "--most", "1")
    for number, (what, sent) in enumerate((("nothing", b""), ("a part of a head", b"\0\0"), ("a part of a message", b"\0\0\0\0\x09abc")), 1):
        proxy = await bridge.connect()
        proxy.send_bytes(sent)
        trial.same(f"{what}: the proxy's end", await proxy.next(), None)
        line = await bridge.says(f"proxy {number}: closed")
        trial.same(f"{what}: why", line, None, contains="0 messages up, 0 down: the proxy sent no message for 2 s")
    trial.same("streams at the control plane", control.arrived.qsize(), 0)
    proxy = await bridge.connect()
    await proxy.send(FIRST)
    stream = await control.next()
    trial.same("one that sends", await stream.next(), FIRST)
    await asyncio.sleep(2.5)
    await stream.send(Response(nonce="later"))
    trial.same("its response later", await proxy.next(), Response(nonce="later").SerializeToString())


async def bounds_proxies(trial):
    """No more proxies than --most; the next one gets in once one has left."""
    control, bridge, proxy, _ = await joined(trial, "--most", "1")
    more = await bridge.connect()
    trial.same("one more", await more.next(), None)
    trial.same("said", await bridge.says("further"), "bridge: 1 proxies are connected; further ones are closed")
    proxy.close()
    await bridge.says("proxy 1: closed")
    more = await bridge.connect()
    await more.send(FIRST)
    trial.same("after one has left", await (await control.next()).next(), FIRST)


async def bounds_open_files(trial):
    """No more proxies than the limit of open files is enough for, which is raised as far as it may be."""
    control, bridge = await a_bridge(trial, before=("prlimit", "--nofile=70:84"))
    trial.same("said", await bridge.says("enough"), "bridge: open files are enough for 10 proxies, and not for 1024")
    for _ in range(10):
        proxy = await bridge.connect()
        await proxy.send(FIRST)
        trial.same("a proxy", await (await control.next()).next(), FIRST)
    trial.same("one more", await (await bridge.connect()).next(), None)


TESTS = [bounds_unread_streams, bounds_streams_that_were_read, escapes_texts, waits_for_a_first_message, bounds_proxies, bounds_open_files]
