"""A relay on the loopback that records what passes, for a decoder to read.

    python3 relay.py PORT CAPTURE

Takes connections on a free port, which it prints, and passes each on to PORT. On SIGTERM it writes CAPTURE, a capture file in which
every connection is one to port 445, and ends. At most 300 seconds.
"""
import importlib.machinery
import importlib.util
import pathlib
import signal
import socket
import sys
import threading

MOST_SECONDS = 300
HERE = pathlib.Path(__file__).resolve().parent


def capture_writer():
    """examples/capture has the packets and the file's form."""
    loader = importlib.machinery.SourceFileLoader("capture", str(HERE.parent / "capture"))
    module = importlib.util.module_from_spec(importlib.util.spec_from_loader("capture", loader))
    sys.dont_write_bytecode = True
    loader.exec_module(module)
    return module


capture = capture_writer()
packets = []
lock = threading.Lock()


def pass_on(source, target, stream, from_client):
    """What one end sends goes to the other, and to the capture in the order in which it came."""
    try:
        while data := source.recv(8192):
            with lock:
                for start in range(0, len(data), capture.SEGMENT):
                    stream.put(from_client, stream.PUSH | stream.ACK, data[start : start + capture.SEGMENT])
            target.sendall(data)
    except OSError:
        pass
    for end in (source, target):
        try:
            end.shutdown(socket.SHUT_RDWR)
        except OSError:
            pass


def serve(listener, port):
    number = 50000
    while True:
        client, _ = listener.accept()
        server = socket.create_connection(("127.0.0.1", port))
        for end in (client, server):
            end.setsockopt(socket.IPPROTO_TCP, socket.TCP_NODELAY, 1)
        with lock:
            stream = capture.Stream(packets, number)
        number += 1
        for ends in ((client, server, stream, True), (server, client, stream, False)):
            threading.Thread(target=pass_on, args=ends, daemon=True).start()


def main():
    port, path = int(sys.argv[1]), sys.argv[2]
    listener = socket.create_server(("127.0.0.1", 0))
    print(listener.getsockname()[1], flush=True)
    threading.Thread(target=serve, args=(listener, port), daemon=True).start()
    signal.sigtimedwait([signal.SIGTERM], MOST_SECONDS)
    with lock:
        capture.write_capture(path, packets)


if __name__ == "__main__":
    signal.pthread_sigmask(signal.SIG_BLOCK, [signal.SIGTERM])
    main()
