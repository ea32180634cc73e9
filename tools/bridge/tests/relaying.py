"""Tests: what is relayed, and what ends a stream."""
import asyncio

import grpc
from control import RESOURCE, Control, Request, Response, response
from proxies import Bridge

LIMIT = 1 << 20
RULES = bytes.fromhex("0a0f120d0a017012080a02180112021801")
FIRST = Request(resource_names=["f"], type_url=RESOURCE, node={"id": "n", "cluster": "c"})


def accepted(version, nonce):
    return Request(version_info=version, resource_names=["f"], type_url=RESOURCE, response_nonce=nonce)


def refused(version, nonce):
    return Request(version_info=version, resource_names=["f"], type_url=RESOURCE, response_nonce=nonce,
                   error_detail={"code": 3, "message": "policy refused: 5"})


async def joined(trial, *words, place="tcp"):
    """A control plane, a bridge, and a proxy whose first request has come through."""
    control = Control()
    await control.start()
    trial.ends.push_async_callback(control.stop)
    bridge = await Bridge.start(trial.place(place), control.port, *words)
    trial.ends.push_async_callback(bridge.end)
    proxy = await bridge.connect()
    await proxy.send(FIRST)
    stream = await control.next()
    trial.same("the first request", await stream.next(), FIRST)
    return control, bridge, proxy, stream


async def relays_messages(trial):
    """Responses, an acknowledgement, a refusal, and pushes that nobody asked for, in their order and with the same bytes."""
    _, bridge, proxy, stream = await joined(trial)
    trial.same("the method", stream.method, "/envoy.service.discovery.v3.AggregatedDiscoveryService/StreamAggregatedResources")
    sent = [response(str(at), f"n{at}", [("f", RULES)]) for at in range(1, 6)]
    await stream.send(sent[0])
    trial.same("a response", await proxy.next(), sent[0].SerializeToString())
    await proxy.send(accepted("1", "n1"))
    trial.same("an acknowledgement", await stream.next(), accepted("1", "n1"))
    for it in sent[1:]:
        await stream.send(it)
    trial.same("pushes", [await proxy.next() for _ in sent[1:]], [it.SerializeToString() for it in sent[1:]])
    await proxy.send(refused("1", "n5"))
    trial.same("a refusal", await stream.next(), refused("1", "n5"))
    proxy.close()
    trial.same("the end", await bridge.says("proxy 1: closed"), None, contains="3 messages up, 5 down: the proxy closed")
    await asyncio.wait_for(stream.gone.wait(), 10)
    trial.same("the status after SIGTERM", await bridge.end(), 0)


async def relays_extensions(trial):
    """The stream of one kind of resource, over a Unix socket."""
    _, _, proxy, stream = await joined(trial, "--method", "ecds", place="unix")
    trial.same("the method", stream.method, "/envoy.service.extension.v3.ExtensionConfigDiscoveryService/StreamExtensionConfigs")
    await stream.send(response("1", "n1"))
    trial.same("a response", await proxy.next(), response("1", "n1").SerializeToString())
    trial.same("its mode", trial.path().stat().st_mode & 0o777, 0o600)


async def relays_pieces(trial):
    """A frame that comes byte by byte, and two in one piece."""
    _, _, proxy, stream = await joined(trial)
    text = accepted("1", "n1").SerializeToString()
    frame = b"\0" + len(text).to_bytes(4, "big") + text
    for at in range(len(frame)):
        proxy.send_bytes(frame[at:at + 1])
        await asyncio.sleep(0.001)
    proxy.send_bytes(frame + frame)
    trial.same("three requests", [await stream.next() for _ in range(3)], [accepted("1", "n1")] * 3)
    proxy.send_bytes(b"\0\0\0\0\0")
    trial.same("an empty message", await stream.next(), Request())


async def relays_the_longest(trial):
    """Messages of 1 MiB pass; one byte more does not."""
    _, bridge, proxy, stream = await joined(trial)
    longest = Request(type_url="a" * (LIMIT - 4))
    trial.same("its size", longest.ByteSize(), LIMIT)
    await proxy.send(longest)
    trial.same("the longest request", await stream.next() == longest, True)
    await stream.send(Response(type_url="a" * (LIMIT - 4), nonce=""))
    trial.same("the longest response", len(await proxy.next() or b""), LIMIT)
    await stream.send(Response(type_url="a" * (LIMIT - 3)))
    trial.same("a longer response", await proxy.next(), None)
    trial.same("why", await bridge.says("proxy 1: closed"), None, contains="the control plane: RESOURCE_EXHAUSTED")
    await asyncio.wait_for(stream.gone.wait(), 10)


async def refuses_frames(trial):
    """Frames that are cut, compressed or too long end the stream, and nothing of them is relayed."""
    control, bridge, _, _ = await joined(trial)
    text = accepted("1", "n1").SerializeToString()
    for number, (what, sent, why) in enumerate((
            ("a cut head", b"\0\0\0", "closed within a frame"), ("a cut message", b"\0\0\0\0\x20" + text[:16], "closed within a frame"),
            ("a flag", b"\1\0\0\0\0", "whose flag is 1"), ("a long frame", b"\0\0\x10\0\1", "a frame of 1048577 bytes"),
            ("HTTP/2", b"PRI * HTTP/2.0\r\n\r\nSM\r\n\r\n", "whose flag is 80")), 2):
        proxy = await bridge.connect()
        await proxy.send(FIRST)
        stream = await control.next()
        trial.same(f"{what}: the first request", await stream.next(), FIRST)
        proxy.send_bytes(sent)
        if "cut" in what:
            proxy.writer.write_eof()
        trial.same(f"{what}: the proxy's end", await proxy.next(), None)
        trial.same(f"{what}: why", await bridge.says(f"proxy {number}: closed"), None, contains=why)
        await asyncio.wait_for(stream.gone.wait(), 10)
        trial.same(f"{what}: further requests", stream.requests.qsize(), 0)


async def ends_with_the_control_plane(trial):
    """A control plane that ends a stream, that dies, and that is away; then it is back."""
    control, bridge, proxy, stream = await joined(trial)
    await stream.send(response("1", "n1"))
    stream.end.set_result(None)
    trial.same("what was sent before the end", await proxy.next(), response("1", "n1").SerializeToString())
    trial.same("a good end", await proxy.next(), None)
    trial.same("why", await bridge.says("proxy 1: closed"), None, contains="the control plane ended the stream")
    proxy = await bridge.connect()
    await proxy.send(FIRST)
    (await control.next()).end.set_result((grpc.StatusCode.PERMISSION_DENIED, "not you"))
    trial.same("a bad end", await proxy.next(), None)
    trial.same("why", await bridge.says("proxy 2: closed"), None, contains="PERMISSION_DENIED: not you")
    proxy = await bridge.connect()
    await proxy.send(FIRST)
    stream = await control.next()
    await control.stop()
    trial.same("a death", await proxy.next(), None)
    proxy = await bridge.connect()
    await proxy.send(FIRST)
    trial.same("none", await proxy.next(), None)
    trial.same("why", await bridge.says("proxy 4: closed"), None, contains="UNAVAILABLE")
    await control.start(control.port)
    proxy = await bridge.connect()
    await proxy.send(FIRST)
    trial.same("it is back", await (await control.next()).next(), FIRST)


async def serves_many(trial):
    """200 proxies at once, each a stream of its own."""
    control = Control()
    await control.start()
    trial.ends.push_async_callback(control.stop)
    bridge = await Bridge.start(trial.place("tcp"), control.port)
    trial.ends.push_async_callback(bridge.end)
    proxies = [await bridge.connect() for _ in range(200)]
    for at, proxy in enumerate(proxies):
        await proxy.send(Request(resource_names=[str(at)], type_url=RESOURCE))
    streams = {}
    for _ in proxies:
        stream = await control.next()
        streams[(await stream.next()).resource_names[0]] = stream
    trial.same("streams", len(streams), 200)
    for at, stream in streams.items():
        await stream.send(response(f"of {at}", "n"))
    got = [await proxy.next() for proxy in proxies]
    trial.same("each has its own response", got, [response(f"of {at}", "n").SerializeToString() for at in range(200)])
    for at, proxy in enumerate(proxies):
        await proxy.send(accepted(f"of {at}", "n"))
    answers = [(await streams[str(at)].next()).version_info for at in range(200)]
    trial.same("each has its own acknowledgement", answers, [f"of {at}" for at in range(200)])
    proxies[7].close()
    await asyncio.wait_for(streams["7"].gone.wait(), 10)
    await streams["8"].send(response("2", "n"))
    trial.same("one that ends ends no other", await proxies[8].next(), response("2", "n").SerializeToString())
    trial.same("its memory in MiB", bridge.memory(), None, below=400)
    await control.stop()
    trial.same("streams that are left", sum([await proxy.next() is not None for proxy in proxies]), 0)
    await control.start(control.port)
    proxies = [await bridge.connect() for _ in range(200)]
    for proxy in proxies:
        await proxy.send(FIRST)
    trial.same("after its death", [await (await control.next()).next() for _ in proxies], [FIRST] * 200)
    trial.same("the status after SIGTERM", await bridge.end(), 0)
    trial.same("streams that are left", sum([await proxy.next() is not None for proxy in proxies]), 0)


TESTS = [relays_messages, relays_extensions, relays_pieces, relays_the_longest, refuses_frames, ends_with_the_control_plane, serves_many]
