"""What is at the other side: the bridge as a program, proxies as sockets, and rbacd."""
import asyncio
import contextlib
import json
import os
import pathlib
import re
import signal

HERE = pathlib.Path(__file__).resolve().parent
BRIDGE = HERE.parent / "bridge"


class Bridge:
    """The program, and what it says."""

    def __init__(self, process, place):
        self.process, self.place, self.lines = process, place, []

    @classmethod
    async def start(cls, place, control, *words, before=()):
        """Starts it, by the words of a program that comes before it, once it listens."""
        if isinstance(control, int):
            control = f"127.0.0.1:{control}"
        process = await asyncio.create_subprocess_exec(*before, BRIDGE, "--listen", place, "--control", control, *words,
                                                       stderr=asyncio.subprocess.PIPE)
        it = cls(process, place)
        it.lines.append((await asyncio.wait_for(process.stderr.readline(), 10)).decode())
        it.reader = asyncio.ensure_future(it.read())
        return it

    async def read(self):
        async for line in self.process.stderr:
            self.lines.append(line.decode())

    async def says(self, pattern):
        """The first line with the pattern, or all that was said."""
        for _ in range(100):
            for line in self.lines:
                if re.search(pattern, line):
                    return line.strip()
            await asyncio.sleep(0.1)
        return "".join(self.lines)

    def memory(self):
        """MiB that it takes, at most until now."""
        with open(f"/proc/{self.process.pid}/status") as file:
            return next(int(line.split()[1]) for line in file if line.startswith("VmHWM")) // 1024

    async def end(self):
        """Its status after SIGTERM."""
        if self.process.returncode is None:
            self.process.send_signal(signal.SIGTERM)
        try:
            status = await asyncio.wait_for(self.process.wait(), 20)
        except asyncio.TimeoutError:
            self.process.kill()
            raise
        await self.reader
        return status

    async def connect(self):
        if self.place.startswith("unix:"):
            return Proxy(*await asyncio.open_unix_connection(self.place[5:]))
        return Proxy(*await asyncio.open_connection(*self.place.rsplit(":", 1)))


class Proxy:
    """One proxy's connection."""

    def __init__(self, reader, writer):
        self.reader, self.writer = reader, writer

    async def send(self, message):
        text = message.SerializeToString()
        self.writer.write(b"\0" + len(text).to_bytes(4, "big") + text)
        await self.writer.drain()

    def send_bytes(self, text):
        self.writer.write(text)

    async def next(self):
        """The bytes of the next message; None at the end of the stream."""
        with contextlib.suppress(asyncio.IncompleteReadError, ConnectionError):
            head = await asyncio.wait_for(self.reader.readexactly(5), 10)
            return await asyncio.wait_for(self.reader.readexactly(int.from_bytes(head[1:], "big")), 10) if not head[0] else head
        return None

    def close(self):
        self.writer.close()


class Rbacd:
    """`rbacd serve`, whose control plane is the bridge."""

    def __init__(self, folder, port, admin):
        self.folder, self.port, self.admin, self.process = folder, port, admin, None

    async def start(self, program, control):
        settings = {"proxy": {"node": "edge-1", "cluster": "edge", "filters": [{"name": "f"}]}, "listen": f"127.0.0.1:{self.port}",
                    "control": control, "admin": self.admin, "update_log": str(self.folder / "updates"),
                    "backoff": {"first": 50, "greatest": 100}, "nack_pause": 50}
        (self.folder / "serve.json").write_text(json.dumps(settings))
        self.process = await asyncio.create_subprocess_exec(program, "serve", "--config", self.folder / "serve.json",
                                                            stdin=asyncio.subprocess.DEVNULL)

    async def status(self):
        """The status of a request; 0 if there is no answer."""
        with contextlib.suppress(OSError):
            reader, writer = await asyncio.open_connection("127.0.0.1", self.port)
            writer.write(b"GET / HTTP/1.1\r\nHost: h\r\nConnection: close\r\n\r\n")
            line = await asyncio.wait_for(reader.readline(), 10)
            writer.close()
            return int(line.split()[1]) if line else 0
        return 0

    async def becomes(self, status):
        """The status, once it is as wanted or ten seconds have passed."""
        for _ in range(100):
            if await self.status() == status:
                break
            await asyncio.sleep(0.1)
        return await self.status()

    async def end(self):
        self.process.kill()
        await self.process.wait()


def environment():
    """Makes grpcio take no proxy from the environment, and say nothing by itself."""
    for name in ("http_proxy", "https_proxy", "grpc_proxy"):
        os.environ.pop(name, None)
    os.environ["GRPC_VERBOSITY"] = "NONE"
