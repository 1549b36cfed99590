"""What the two programs do beside a logon: where a peer never ends its message, and where somebody
leaves at the prompt."""
import fcntl
import os
import pty
import signal
import socket
import ssl
import subprocess
import termios
import threading
import time

from meeting import NAME, PASSWORD
from peers import SECONDS, Said

LIMIT = ["--seconds", "2"]
# over ten seconds, and a peer would count as silent
PAUSE = 0.2
# they request CredSSP, and agree to it (MS-RDPBCGR 2.2.1.1.1, 2.2.1.2.1)
X224_REQUEST = bytes.fromhex("030000130ee000000000000100080003000000")
X224_CONFIRM = bytes.fromhex("030000130ed000000000000200080002000000")
# the header of a TSRequest whose content has 1000 bytes, and the version
LONG_REQUEST = bytes.fromhex("308203e8a003020106") + bytes(991)


def drip(send, octets):
    """One byte at a time, until the other end has closed."""
    try:
        for at in range(len(octets)):
            send(octets[at:at + 1])
            time.sleep(PAUSE)
    except OSError:
        pass


def without_tls(port):
    with socket.create_connection(("127.0.0.1", port), SECONDS) as peer:
        # a TPKT header that announces 512 bytes
        drip(peer.sendall, bytes.fromhex("03000200") + bytes(508))


def over_tls(port, cut):
    """Whole records of one byte each, or the bytes of one record."""
    context = ssl.SSLContext(ssl.PROTOCOL_TLS_CLIENT)
    context.check_hostname = False
    context.verify_mode = ssl.CERT_NONE
    with socket.create_connection(("127.0.0.1", port), SECONDS) as peer:
        peer.sendall(X224_REQUEST)
        peer.recv(512)
        incoming, outgoing = ssl.MemoryBIO(), ssl.MemoryBIO()
        tls = context.wrap_bio(incoming, outgoing)
        while True:
            try:
                tls.do_handshake()
                break
            except ssl.SSLWantReadError:
                peer.sendall(outgoing.read())
                incoming.write(peer.recv(65536))
        peer.sendall(outgoing.read())

        def record(octets):
            tls.write(octets)
            return outgoing.read()
        if cut:
            drip(peer.sendall, record(LONG_REQUEST))
        else:
            drip(lambda octet: peer.sendall(record(octet)), LONG_REQUEST)


def server_is_left_waiting(ours, peer, place):
    server, port = ours.start(*LIMIT)
    begun = time.monotonic()
    peer(port)
    said = ours.stop(server)
    took = time.monotonic() - begun
    return said.status == 3 and f"fault: DeadlinePassed: {place}" in said.text and took < 5, said


def client_is_left_waiting(ours):
    with socket.create_server(("127.0.0.1", 0)) as listener:
        def answer():
            peer, _ = listener.accept()
            with peer:
                peer.recv(512)
                drip(peer.sendall, X224_CONFIRM)
        thread = threading.Thread(target=answer, daemon=True)
        thread.start()
        begun = time.monotonic()
        said = ours.connect(listener.getsockname()[1], NAME, PASSWORD, *LIMIT)
        took = time.monotonic() - begun
        thread.join(SECONDS)
    return said.status == 3 and "fault: DeadlinePassed: X.224" in said.text and took < 5, said


def at_the_prompt(ours, port, typed):
    """Runs a client at a terminal of its own and types at its prompt. Whether it echoed before and
    behind that, and what it said."""
    words = [
        str(ours.folder / "credssp-client"), "--host", "localhost", "--port", str(port),
        "--user", NAME, "--certificate", str(ours.certificate),
    ]
    master, slave = pty.openpty()

    def echoes():
        return bool(termios.tcgetattr(master)[3] & termios.ECHO)

    def with_terminal():
        fcntl.ioctl(slave, termios.TIOCSCTTY, 0)
        # a shell's background job would pass on that they are ignored
        signal.signal(signal.SIGINT, signal.SIG_DFL)
        signal.signal(signal.SIGQUIT, signal.SIG_DFL)
    client = subprocess.Popen(
        words,
        stdin=slave,
        stdout=slave,
        stderr=slave,
        start_new_session=True,
        preexec_fn=with_terminal,
    )
    seen = b""
    while b"Password: " not in seen:
        seen += os.read(master, 1024)
    while echoes():
        time.sleep(0.01)
    os.write(master, typed)
    status = client.wait(SECONDS)
    echo = echoes()
    os.close(slave)
    try:
        while octets := os.read(master, 1024):
            seen += octets
    except OSError:
        pass
    os.close(master)
    return echo, Said(seen.decode(errors="replace"), status)


def somebody_leaves(ours, typed, number):
    server, port = ours.start()
    echo, said = at_the_prompt(ours, port, typed)
    ours.stop(server)
    return echo and said.status == -number, said


def somebody_types(ours):
    server, port = ours.start()
    echo, said = at_the_prompt(ours, port, PASSWORD.encode() + b"\n")
    ours.stop(server)
    return (
        echo and said.status == 0 and "delegated" in said.text and PASSWORD not in said.text,
        said,
    )


def checks(ours):
    """The name of each, and what runs it:
    whether it came as expected, and what the program said."""
    return [
        (
            "a client sends its X.224 request a byte at a time",
            lambda: server_is_left_waiting(ours, without_tls, "X.224"),
        ),
        (
            "a client sends a request in records of one byte",
            lambda: server_is_left_waiting(ours, lambda port: over_tls(port, False), "CredSSP"),
        ),
        (
            "a client sends a TLS record a byte at a time",
            lambda: server_is_left_waiting(ours, lambda port: over_tls(port, True), "CredSSP"),
        ),
        ("a server sends its X.224 confirm a byte at a time", lambda: client_is_left_waiting(ours)),
        ("the password is typed at the prompt", lambda: somebody_types(ours)),
        ("Ctrl-C at the prompt", lambda: somebody_leaves(ours, b"sec\x03", signal.SIGINT)),
        ("Ctrl-\\ at the prompt", lambda: somebody_leaves(ours, b"sec\x1c", signal.SIGQUIT)),
    ]
