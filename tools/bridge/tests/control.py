"""A control plane over gRPC: grpcio's server, with messages that protobuf's own parser reads by the `.proto` files of tools/policy."""
import asyncio

import grpc
import grpc.aio
from google.protobuf import message_factory
from policies.messages import EXTENSION, FILTER, PREFIX, descriptor

_factory = message_factory.MessageFactory()
Request, Response, Extension = (_factory.GetPrototype(descriptor(name)) for name in (
    "envoy.service.discovery.v3.DiscoveryRequest", "envoy.service.discovery.v3.DiscoveryResponse", EXTENSION))
RESOURCE, RBAC = PREFIX + EXTENSION, PREFIX + FILTER


def response(version, nonce, filters=()):
    """A response with filters by name."""
    made = Response(version_info=version, nonce=nonce, type_url=RESOURCE)
    for name, rules in filters:
        extension = Extension(name=name)
        extension.typed_config.type_url, extension.typed_config.value = RBAC, rules
        made.resources.add(type_url=RESOURCE, value=extension.SerializeToString())
    return made


def read_request(raw):
    """A request, which has to have no field that the messages lack."""
    request = Request.FromString(raw)
    request.DiscardUnknownFields()
    return request if request.ByteSize() == len(raw) else None


class Served:
    """One stream at the control plane."""

    def __init__(self, context, method):
        self.context, self.method, self.end = context, method, asyncio.get_running_loop().create_future()
        self.requests, self.gone = asyncio.Queue(), asyncio.Event()

    async def read(self):
        while (request := await self.context.read()) is not grpc.aio.EOF:
            self.requests.put_nowait(request)

    async def next(self):
        return await asyncio.wait_for(self.requests.get(), 10)

    async def send(self, message):
        await self.context.write(message.SerializeToString())


class Control:
    """The server; each new stream is in `arrived`."""

    REFUSED = grpc.StatusCode.PERMISSION_DENIED

    def __init__(self):
        self.arrived, self.server, self.port = asyncio.Queue(), None, 0

    async def start(self, port=0, credentials=None):
        self.server = grpc.aio.server(options=[("grpc.so_reuseport", 0), ("grpc.max_send_message_length", -1)])
        self.server.add_generic_rpc_handlers((self,))
        place = f"127.0.0.1:{port}"
        self.port = self.server.add_secure_port(place, credentials) if credentials else self.server.add_insecure_port(place)
        await self.server.start()

    async def stop(self):
        await self.server.stop(0)

    def service(self, details):
        async def handle(_, context):
            await self.serve(context, details.method)
        return grpc.stream_stream_rpc_method_handler(handle, request_deserializer=read_request)

    async def serve(self, context, method):
        stream = Served(context, method)
        self.arrived.put_nowait(stream)
        reader = asyncio.ensure_future(stream.read())
        try:
            status = await stream.end
            if status:
                await context.abort(*status)
        finally:
            reader.cancel()
            stream.gone.set()

    async def next(self):
        return await asyncio.wait_for(self.arrived.get(), 10)
