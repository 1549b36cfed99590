"""The ends of a logon: ours, and those of FreeRDP 2 or 3. Each run answers what the end said and
how it ended."""
import os
import re
import shutil
import socket
import subprocess
import time
from dataclasses import dataclass
from pathlib import Path

SECONDS = 30


@dataclass
class Said:
    """Everything that an end wrote, and its exit status (None where it was stopped)."""
    text: str
    status: int | None

    def everything(self):
        """For a logon that came otherwise than expected: the status and the last lines, but what
        NTLM says of its flags."""
        lines = [line for line in self.text.splitlines() if "sspi.NTLM" not in line]
        return "\n".join(["", f"status {self.status}", *lines[-20:]]).replace("\n", "\n        ")


def free_port():
    with socket.create_server(("127.0.0.1", 0)) as listener:
        return listener.getsockname()[1]


def wait_for(path, words, process=None):
    """Until the file has the words, as long as the process runs."""
    for _ in range(SECONDS * 20):
        if path.exists() and words in path.read_text(errors="replace"):
            return
        if process and process.poll() is not None:
            break
        time.sleep(0.05)
    raise TimeoutError(f"{path} never has {words!r}")


class Ours:
    """The two example programs in `folder`, with a certificate and its key."""

    name = "libnewaksu"

    def __init__(self, folder, work):
        self.folder, self.work = folder, work
        self.certificate, self.key = work / "server.crt", work / "server.key"
        self.log = work / "server.log"

    def start(self, *arguments, environment=None):
        """A server, once it listens; answers the process and its port."""
        port = free_port()
        self.log.unlink(missing_ok=True)
        words = [
            self.folder / "credssp-server", "--certificate", self.certificate, "--key", self.key,
            "--port", str(port), *arguments,
        ]
        if "--mechanism" not in arguments:
            words += ["--users", self.work / "users"]
        with self.log.open("wb") as log:
            server = subprocess.Popen(words, stdout=log, stderr=log, env=environment)
        wait_for(self.log, "listening")
        return server, port

    def stop(self, server):
        """What a server said, once it has ended: soon after its client, unless none came."""
        try:
            status = server.wait(SECONDS // 2)
        except subprocess.TimeoutExpired:
            server.kill()
            server.wait()
            status = None
        return Said(self.log.read_text(errors="replace"), status)

    def connect(self, port, user, password, *arguments, trust=None, environment=None):
        """A client's run; the password goes through a pipe."""
        read_end, write_end = os.pipe()
        os.write(write_end, password.encode() + b"\n")
        os.close(write_end)
        words = [
            self.folder / "credssp-client", "--host", "localhost", "--port", str(port),
            "--user", user, "--password-fd", str(read_end),
            *(trust or ["--certificate", self.certificate]), *arguments,
        ]
        ran = subprocess.run(
            words,
            stdout=subprocess.PIPE,
            stderr=subprocess.STDOUT,
            pass_fds=[read_end],
            timeout=SECONDS,
            env=environment,
            check=False,
        )
        os.close(read_end)
        return Said(ran.stdout.decode(errors="replace"), ran.returncode)


class FreeRdp:
    """FreeRDP's client and shadow server, over an X server of their own that shows nothing."""

    PROGRAMS = ["xfreerdp", "freerdp-shadow-cli", "winpr-hash"]

    def __init__(self, work):
        self.work = work
        self.home = work / "home"
        self.home.mkdir()
        suffix = "3" if shutil.which("xfreerdp3") else ""
        self.second = not suffix
        # how its logs show that CredSSP succeeded
        self.client_went_on = r"CONNECTION_STATE_NLA --> CONNECTION_STATE_MCS_\w+"
        self.server_went_on = (r"CONNECTION_STATE_NEGO --> CONNECTION_STATE_MCS_\w+" if suffix
                               else r"CONNECTION_STATE_INITIAL --> CONNECTION_STATE_NEGO")
        self.client, self.shadow, self.hash = (name + suffix for name in self.PROGRAMS)
        self.log, self.errors = work / "shadow.log", work / "shadow.errors"
        self.display, self.environment = None, {}

    def __enter__(self):
        read_end, write_end = os.pipe()
        with (self.work / "xvfb.log").open("wb") as log:
            # with -noreset it keeps running after its last client has gone
            words = [
                "Xvfb", "-displayfd", str(write_end), "-screen", "0", "640x480x24",
                "-nolisten", "tcp", "-noreset",
            ]
            self.display = subprocess.Popen(words, pass_fds=[write_end], stdout=log, stderr=log)
        os.close(write_end)
        with os.fdopen(read_end) as answer:
            number = answer.readline().strip()
        self.environment = {
            "PATH": os.environ["PATH"],
            "HOME": str(self.home),
            "DISPLAY": f":{number}",
            "WLOG_LEVEL": "DEBUG",
            "XDG_RUNTIME_DIR": str(self.work),
        }
        shown = subprocess.run(
            [self.client, "/version"],
            env=self.environment,
            stdout=subprocess.PIPE,
            stderr=subprocess.STDOUT,
        )
        found = re.search(rb"version (\d+\.\d+\.\d+)", shown.stdout)
        self.version = found.group(1).decode() if found else "?"
        self.name = f"FreeRDP {self.version}"
        return self

    def __exit__(self, *_):
        self.display.terminate()
        self.display.wait()

    def start(self, sam, *arguments, environment=None):
        """The shadow server, once it listens, with the users of the file."""
        for _ in range(3):
            port = free_port()
            # its log goes through stdio, which would keep the last lines buffered
            words = [
                "stdbuf", "-oL", self.shadow, f"/port:{port}", "/bind-address:127.0.0.1",
                f"/sam-file:{sam}", *arguments,
            ]
            with self.log.open("wb") as log, self.errors.open("wb") as errors:
                server = subprocess.Popen(
                    words,
                    stdout=log,
                    stderr=errors,
                    env={**self.environment, **(environment or {})},
                )
            try:
                wait_for(self.log, f"]:{port}", server)
                return server, port
            except TimeoutError:
                # somebody else may have taken the port meanwhile
                server.kill()
                server.wait()
        raise TimeoutError(
            f"{self.shadow} does not listen: {self.errors.read_text(errors='replace')}"
        )

    def stop(self, server):
        # what it logs about a connection that has ended may come a little later
        time.sleep(0.5)
        server.terminate()
        try:
            server.wait(SECONDS)
        except subprocess.TimeoutExpired:
            server.kill()
            server.wait()
        return Said(
            self.log.read_text(errors="replace") + self.errors.read_text(errors="replace"), None
        )

    def files(self):
        """The certificate and key that the shadow server made for itself."""
        folder = self.home / ".config" / "freerdp" / "shadow"
        certificate = next(folder.glob("*.crt"))
        return certificate, next(folder.glob("*.key"))

    def sam_line(self, domain, user, password):
        made = subprocess.run(
            [self.hash, "-u", user, "-d", domain, "-p", password, "-f", "sam"],
            env=self.environment,
            stdout=subprocess.PIPE,
            check=True,
        )
        return made.stdout.decode()

    def connect(self, port, domain, user, password, *arguments, kerberos=None):
        """`kerberos`: the environment of a realm, which lets it offer Kerberos too."""
        environment = {
            **self.environment,
            **({"KRB5_CONFIG": kerberos["KRB5_CONFIG"]} if kerberos else {}),
        }
        # FreeRDP warns about passwords on a command line; this one is made up for the run
        words = [
            self.client, f"/v:127.0.0.1:{port}", "/cert:ignore", "+auth-only",
            f"/d:{domain}", f"/u:{user}", f"/p:{password}", *(arguments or ["/sec:nla"]),
        ]
        try:
            ran = subprocess.run(
                words,
                stdin=subprocess.DEVNULL,
                capture_output=True,
                timeout=SECONDS,
                env=environment,
                check=False,
            )
        except subprocess.TimeoutExpired as late:
            return Said(
                ((late.stdout or b"") + (late.stderr or b"")).decode(errors="replace"), None
            )
        return Said((ran.stdout + ran.stderr).decode(errors="replace"), ran.returncode)
