#!/usr/bin/env python3
"""Records what other implementations of HTTP/2 send, and reads it with the proved connection, in pieces of 1, 7, 4,096 and
1,048,576 bytes: each recording must be read to its end, and told the same whatever the pieces.

usage: bench/vectors/run.py [--keep DIR]

Needs Debian's nghttp2-client, nghttp2-server, curl and python3-h2 (run with /usr/bin/python3), and rt. One that is missing is
skipped, and said so. Run by hand: no part of the gate. Exit status 0 where each recording passes.
"""
import argparse
import pathlib
import shutil
import socket
import subprocess
import sys
import tempfile
import threading
import time

HERE = pathlib.Path(__file__).resolve().parent
sys.path.insert(0, str(HERE.parent))
from proved import TOP, build  # noqa: E402

try:
    import h2.config
    import h2.connection
    import h2.events
except ImportError:
    h2 = None

BODY = b"\0\0\0\0\x04abcd"


def serve(listener: socket.socket, record: list[bytes]) -> None:
    """Answers one client's requests by python3-h2, and records what the client sent."""
    link, _ = listener.accept()
    link.settimeout(5)
    side = h2.connection.H2Connection(h2.config.H2Configuration(client_side=False, header_encoding="utf-8"))
    side.initiate_connection()
    link.sendall(side.data_to_send())
    try:
        while data := link.recv(65536):
            record.append(data)
            for event in side.receive_data(data):
                if isinstance(event, h2.events.DataReceived):
                    side.acknowledge_received_data(event.flow_controlled_length, event.stream_id)
                if isinstance(event, h2.events.StreamEnded):
                    side.send_headers(event.stream_id, [(":status", "200"), ("content-type", "application/grpc")])
                    side.send_data(event.stream_id, BODY)
                    side.send_headers(event.stream_id, [("grpc-status", "0")], end_stream=True)
            link.sendall(side.data_to_send())
    except (OSError, TimeoutError):
        pass
    link.close()


def recorded(words: list[str]) -> bytes:
    """What the client that these words start sent; PORT stands for the port."""
    listener = socket.create_server(("127.0.0.1", 0))
    listener.settimeout(10)
    record: list[bytes] = []
    server = threading.Thread(target=serve, args=(listener, record))
    server.start()
    port = str(listener.getsockname()[1])
    subprocess.run([w.replace("PORT", port) for w in words], stdout=subprocess.DEVNULL, stderr=subprocess.DEVNULL, timeout=30, check=False)
    server.join()
    return b"".join(record)


def exchange(port: int, streams: int, size: int) -> tuple[bytes, bytes]:
    """What a client of python3-h2 sent to the server at the port on so many streams, and what the server sent."""
    side = h2.connection.H2Connection(h2.config.H2Configuration(client_side=True, header_encoding="utf-8"))
    side.initiate_connection()
    link = socket.create_connection(("127.0.0.1", port))
    link.settimeout(2)
    for i in range(streams):
        stream = side.get_next_available_stream_id()
        side.send_headers(stream, [(":method", "POST"), (":scheme", "http"), (":path", "/big"), (":authority", "localhost"),
                                   ("content-type", "application/grpc"), ("x-number", str(i))])
        side.send_data(stream, b"x" * size, end_stream=True, pad_length=7 if i % 2 else None)
    ours, theirs, ended = side.data_to_send(), [], 0
    link.sendall(ours)
    try:
        while ended < streams and (data := link.recv(65536)):
            theirs.append(data)
            for event in side.receive_data(data):
                if isinstance(event, h2.events.DataReceived):
                    side.acknowledge_received_data(event.flow_controlled_length, event.stream_id)
                ended += isinstance(event, h2.events.StreamEnded)
            more = side.data_to_send()
            ours += more
            link.sendall(more)
    except (OSError, TimeoutError):
        pass
    link.close()
    return ours, b"".join(theirs)



def vectors() -> list[tuple[str, int, bytes]]:
    """Name, streams that a client began (0: a client's own bytes), and bytes."""
    found: list[tuple[str, int, bytes]] = []
    with tempfile.TemporaryDirectory() as room:
        body = pathlib.Path(room) / "body"
        body.write_bytes(b"y" * 300_000)
        small = pathlib.Path(room) / "small"
        small.write_bytes(b"s" * 5_000)
        clients = [
            ["curl", "-s", "--http2-prior-knowledge", "http://127.0.0.1:PORT/"],
            ["curl", "-s", "--http2-prior-knowledge", "-H", "content-type: application/grpc", "--data-binary", f"@{body}", "http://127.0.0.1:PORT/x"],
            ["nghttp", "http://127.0.0.1:PORT/", "http://127.0.0.1:PORT/b", "http://127.0.0.1:PORT/c"],
            ["nghttp", "-b", "20", "-H", "x-long: " + "z" * 20_000, "-d", str(body), "http://127.0.0.1:PORT/"],
            ["nghttp", "--header-table-size=0", "-n", "http://127.0.0.1:PORT/", "-m", "5"],
            ["h2load", "-n", "50", "-c", "1", "-m", "10", "-H", "te: trailers", "-d", str(small), "http://127.0.0.1:PORT/"],
        ]
        for words in clients:
            if shutil.which(words[0]) is None:
                print(f"skipped: {words[0]} is not here")
                continue
            found.append((" ".join(w if len(w) < 40 else w[:12] + ".." for w in words).replace(str(body), "BODY").replace(str(small), "SMALL"), 0, recorded(words)))
        if shutil.which("nghttpd") or pathlib.Path("/usr/sbin/nghttpd").exists():
            (pathlib.Path(room) / "big").write_bytes(b"w" * 200_000)
            port = socket.create_server(("127.0.0.1", 0)).getsockname()[1]
            server = subprocess.Popen([shutil.which("nghttpd") or "/usr/sbin/nghttpd", "--no-tls", "-d", room, "-b", "9", str(port)],
                                      stdout=subprocess.DEVNULL, stderr=subprocess.DEVNULL)
            time.sleep(1)
            ours, theirs = exchange(port, 3, 900)
            server.terminate()
            found += [("python3-h2's requests to nghttpd", 0, ours), ("nghttpd's answers", 3, theirs)]
        else:
            print("skipped: nghttpd is not here")
    return found


def crates() -> dict[str, str]:
    lines = (line.split(":", 1) for line in (TOP / "crates.txt").read_text().splitlines() if ":" in line and not line.startswith("#"))
    known = {name.strip().split()[0]: rest.strip() for name, rest in lines}
    words = (known["h2_conn"] + " h2_conn " + known["grpc_heads"] + " grpc_heads").split()
    order = [name for name in known if name in words]
    return {name: known[name] for name in order} | {"program": " ".join(dict.fromkeys(words)) + " anyhow"}


def main() -> int:
    asked = argparse.ArgumentParser(description=__doc__, formatter_class=argparse.RawDescriptionHelpFormatter)
    asked.add_argument("--keep", type=pathlib.Path, help="a folder for the recordings")
    keep = asked.parse_args().keep
    if h2 is None:
        print("python3-h2 is not here: nothing was recorded")
        return 0
    found = vectors()
    reader = build(HERE / "read_vector.rt.in", crates(), is_proved=False)
    passed = True
    for number, (name, streams, data) in enumerate(found):
        if keep:
            keep.mkdir(parents=True, exist_ok=True)
            (keep / f"{number}.bin").write_bytes(data)
        done = subprocess.run(["rt", "try", "--", str(streams)], cwd=reader, input=data, stdout=subprocess.PIPE, stderr=subprocess.DEVNULL, check=False)
        said = [line for line in done.stdout.decode().splitlines() if " heads " in line]
        is_right = len(said) == 4 and len(set(said)) == 1 and said[0].startswith("all was read") and len(data) > 0
        passed &= is_right
        print(f"{'ok' if is_right else 'WRONG'}: {name}: {len(data)} bytes: {said[0] if len(set(said)) == 1 else said}")
    return 0 if passed else 1


sys.exit(main())
