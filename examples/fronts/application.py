"""An application that hypercorn runs: HTTP/1.1, HTTP/2, also after `Upgrade: h2c`, and websocket. For examples/fronts/try.

Usage: application.py PORT FILE    FILE gets a line of JSON for each request that was served
"""
import asyncio
import json
import sys

from hypercorn.asyncio import serve
from hypercorn.config import Config


class Application:
    """Writes each request down, says `served` to it, and sends back what comes over a websocket."""

    def __init__(self, log):
        self.log = log

    def note(self, scope):
        query = scope["query_string"].decode("latin-1")
        fields = [[name.decode("latin-1").lower(), value.decode("latin-1")] for name, value in scope["headers"]]
        line = {"kind": scope["type"], "version": scope["http_version"], "method": scope.get("method", "GET"),
                "target": scope["raw_path"].decode("latin-1") + ("?" + query if query else ""), "fields": fields}
        with open(self.log, "a") as file:
            file.write(json.dumps(line) + "\n")

    async def __call__(self, scope, receive, send):
        if scope["type"] == "lifespan":
            while (event := await receive())["type"] != "lifespan.shutdown":
                await send({"type": event["type"] + ".complete"})
            return await send({"type": "lifespan.shutdown.complete"})
        self.note(scope)
        if scope["type"] == "websocket":
            return await self.echo(receive, send)
        while (await receive()).get("more_body"):
            pass
        await send({"type": "http.response.start", "status": 200, "headers": [(b"content-length", b"6")]})
        await send({"type": "http.response.body", "body": b"served"})

    async def echo(self, receive, send):
        await receive()
        await send({"type": "websocket.accept"})
        while (event := await receive())["type"] == "websocket.receive":
            await send({"type": "websocket.send", "text": event.get("text"), "bytes": event.get("bytes")})


def main():
    config = Config()
    config.bind = [f"127.0.0.1:{sys.argv[1]}"]
    asyncio.run(serve(Application(sys.argv[2]), config))


if __name__ == "__main__":
    main()
