"""What runs over sockets needs: a port that is free, whether a port is listened at, what a peer sends, and whether the run can be
made here."""
import contextlib
import pathlib
import shutil
import socket


def free_port():
    with socket.socket() as it:
        it.bind(("127.0.0.1", 0))
        return it.getsockname()[1]


def listens(port):
    """Whether a socket of this machine listens at the port; no connection is spent on that."""
    rows = [row for table in ("tcp", "tcp6") if (path := pathlib.Path("/proc/net", table)).exists()
            for row in path.read_text().split("\n")[1:]]
    return any(row.split()[1].endswith(f":{port:04X}") and row.split()[3] == "0A" for row in rows if row)


def heard(peer, count):
    """So many bytes, or fewer where the stream ends."""
    got = b""
    with contextlib.suppress(ConnectionResetError, TimeoutError):
        while len(got) < max(count, 1):
            more = peer.recv(max(count, 1) - len(got))
            if not more:
                break
            got += more
    return got


def lacking():
    """What the run needs and is not there."""
    if not shutil.which("curl"):
        return "there is no curl"
    try:
        with socket.create_server(("127.0.0.1", 0)) as it:
            return None if listens(it.getsockname()[1]) else "/proc/net/tcp does not say who listens"
    except OSError as cause:
        return f"there is no loopback: {cause}"
