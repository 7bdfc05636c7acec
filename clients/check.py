#!/usr/bin/python3
"""Drives `gribi serve` with clients of other makers. See README.md beside this file."""
import os
import shutil
import socket
import subprocess
import sys
import tempfile
import time

HERE = os.path.dirname(os.path.abspath(__file__))
TOP = os.path.dirname(HERE)
ADDRESS = ("127.0.0.1", 9341)
TARGET = f"{ADDRESS[0]}:{ADDRESS[1]}"
failures = []


def check(what, holds):
    print(("ok      " if holds else "FAILED  ") + what)
    if not holds:
        failures.append(what)


def skip(what):
    print(f"skipped {what}: not installed")


def wait_until_open():
    for _ in range(100):
        with socket.socket() as probe:
            if probe.connect_ex(ADDRESS) == 0:
                return True
        time.sleep(0.05)
    return False


def stubs(room):
    """The module pair that protoc makes of the schema, or None where grpcio is not there."""
    try:
        import grpc  # noqa: F401
        from grpc_tools import protoc
    except ImportError:
        return None
    words = ["protoc", f"-I{TOP}/proto", f"--python_out={room}", f"--grpc_python_out={room}", "gribi.proto"]
    if protoc.main(words):
        return None
    sys.path.insert(0, room)
    import gribi_pb2
    import gribi_pb2_grpc
    return gribi_pb2, gribi_pb2_grpc


def operations(gribi, count):
    for number in range(1, count + 1):
        operation = gribi.AFTOperation(id=number, network_instance="DEFAULT", op=gribi.AFTOperation.ADD, election_id=gribi.Uint128(low=1))
        operation.next_hop.index = number
        operation.next_hop.next_hop.SetInParent()
        yield gribi.ModifyRequest(operation=[operation])


def with_grpcio(gribi, rpc):
    import grpc
    with grpc.insecure_channel(TARGET) as channel:
        stub = rpc.gRIBIStub(channel)
        count = 100
        first = gribi.SessionParameters(
            redundancy=gribi.SessionParameters.SINGLE_PRIMARY,
            persistence=gribi.SessionParameters.PRESERVE,
            ack_type=gribi.SessionParameters.RIB_AND_FIB_ACK,
        )
        asked = [gribi.ModifyRequest(params=first), gribi.ModifyRequest(election_id=gribi.Uint128(low=1)), *operations(gribi, count)]
        results = [result.status for response in stub.Modify(iter(asked), timeout=20) for result in response.result]
        check("grpcio: each operation is acknowledged by the table", results.count(gribi.AFTResult.RIB_PROGRAMMED) == count)
        check("grpcio: each operation is acknowledged by the forwarding table", results.count(gribi.AFTResult.FIB_PROGRAMMED) == count)
        ask = gribi.GetRequest(aft=gribi.ALL)
        ask.all.SetInParent()
        rows = [entry for response in stub.Get(ask, timeout=20) for entry in response.entry]
        check("grpcio: a Get gives all entries", len(rows) == count)
        flush = gribi.FlushRequest(override=gribi.Empty())
        flush.all.SetInParent()
        check("grpcio: a Flush is answered", stub.Flush(flush, timeout=20).result == gribi.FlushResponse.OK)
        check("grpcio: nothing is left behind it", not [entry for response in stub.Get(ask, timeout=20) for entry in response.entry])
        try:
            list(stub.Modify(iter(operations(gribi, 1)), timeout=20))
            code = None
        except grpc.RpcError as fault:
            code = fault.code()
        check("grpcio: an operation without parameters is refused", code is not None and code != grpc.StatusCode.DEADLINE_EXCEEDED)
        try:
            channel.unary_unary("/gribi.gRIBI/Other")(b"", timeout=20)
            code = None
        except grpc.RpcError as fault:
            code = fault.code()
        check("grpcio: another method is UNIMPLEMENTED", code == grpc.StatusCode.UNIMPLEMENTED)


def runs(words, **named):
    return subprocess.run(words, capture_output=True, text=True, timeout=60, **named)


def with_tools(room):
    path = f"http://{TARGET}/gribi.gRIBI/Get"
    message = f"{room}/get.bin"
    with open(message, "wb") as file:
        # All instances and all kinds, behind the five bytes of gRPC's framing.
        file.write(bytes([0, 0, 0, 0, 4, 0x12, 0, 0x18, 1]))
    head = ["-H", "content-type: application/grpc", "-H", "te: trailers"]
    if shutil.which("curl"):
        said = runs(["curl", "-sS", "--http2-prior-knowledge", "-D", "-", "-o", "/dev/null", "--data-binary", f"@{message}", *head, path]).stdout
        check("curl: a Get is answered with its status", "grpc-status: 0" in said)
    else:
        skip("curl")
    if shutil.which("nghttp"):
        said = runs(["nghttp", "-v", "-d", message, *head, path]).stdout
        check("nghttp: a Get is answered with its status", "grpc-status: 0" in said)
    else:
        skip("nghttp")
    if shutil.which("h2load"):
        said = runs(["h2load", "-n", "2000", "-c", "4", "-m", "10", "-d", message, *head, path]).stdout
        check("h2load: 2,000 Gets over four connections succeed", "2000 succeeded" in said)
    else:
        skip("h2load")


def main():
    program = sys.argv[1] if len(sys.argv) > 1 else f"{TOP}/crates/gribi/out/gribi"
    server = subprocess.Popen([program, "serve", "--listen", TARGET, "--workers", "2"], stdout=subprocess.PIPE)
    try:
        check("the server listens", wait_until_open())
        with tempfile.TemporaryDirectory() as room:
            made = stubs(room)
            if made:
                with_grpcio(*made)
            else:
                skip("grpcio with its tools")
            with_tools(room)
    finally:
        server.kill()
    print(f"{len(failures)} failed")
    return 1 if failures else 0


if __name__ == "__main__":
    sys.exit(main())
