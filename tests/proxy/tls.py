"""nginx with TLS: names for everybody, edits at a port of their own with a client certificate."""

import base64
import http.client
import re
import shutil
import socket
import ssl
import subprocess
from pathlib import Path

from maplabel_kit.files import folder
from maplabel_kit.ports import HOST
from stage import DEPLOY, PORT, TLS, TLS_EDITS, add, ask, fail, ids, nginx, running, say, town
from trials import trial

NAME = "map.example"


def openssl(at: Path, *words: str) -> "subprocess.CompletedProcess[bytes]":
    """Runs openssl in a folder."""
    return subprocess.run(["openssl", *words], cwd=at, capture_output=True, check=True)


def make_certificates(at: Path, name: str = NAME) -> None:
    """A certificate of the server, an authority of editors, and one of an editor and of a
    stranger."""
    for one in ("server", "editors", "stranger"):
        subject = name if one == "server" else one
        openssl(
            at,
            "req",
            "-x509",
            "-newkey",
            "rsa:2048",
            "-nodes",
            "-keyout",
            f"{one}.key",
            "-out",
            f"{one}.crt",
            "-subj",
            f"/CN={subject}",
            "-addext",
            f"subjectAltName=DNS:{name}",
        )
    openssl(
        at,
        "req",
        "-newkey",
        "rsa:2048",
        "-nodes",
        "-keyout",
        "editor.key",
        "-out",
        "editor.csr",
        "-subj",
        "/CN=an editor",
    )
    openssl(
        at,
        "x509",
        "-req",
        "-in",
        "editor.csr",
        "-CA",
        "editors.crt",
        "-CAkey",
        "editors.key",
        "-CAcreateserial",
        "-out",
        "editor.crt",
    )


class Secured:
    """Requests over TLS, with the certificate of one who may edit, of a stranger, or none."""

    def __init__(self, at: Path, who: str | None) -> None:
        self.context = ssl.create_default_context(cafile=str(at / "server.crt"))
        if who:
            self.context.load_cert_chain(str(at / f"{who}.crt"), str(at / f"{who}.key"))

    def ask(
        self, port: int, method: str, target: str, body: str | None = None, **fields: str
    ) -> int:
        """The status of a reply, 0 where none came."""
        link = http.client.HTTPSConnection(HOST, port, timeout=20, context=self.context)
        try:
            plain = socket.create_connection((HOST, port), 20)
            link.sock = self.context.wrap_socket(plain, server_hostname=NAME)
            data = body.encode() if body is not None else None
            link.request(method, target, data, {"Host": NAME, "X-Edit": "1"} | fields)
            return link.getresponse().status
        except (OSError, http.client.HTTPException):
            return 0
        finally:
            link.close()


@trial("tls")
def edits() -> None:
    """Names are read over TLS by everybody, edits are made by those with a certificate alone,
    and no other name of the machine is answered."""
    if not shutil.which("openssl"):
        say("openssl is not installed: TLS is not tried")
        return
    with folder() as at:
        at.chmod(0o755)
        make_certificates(at)
        with running(at, "--drain", at / "drain", "--publish", at / "published"):
            with nginx(at, has_tls=True):
                _ask_all(at)
    say("nginx with TLS: all read, those with a certificate edit, and nobody else")


def _ask_all(at: Path) -> None:
    body = town("added-s")
    for who, port, method, target, want in (
        (None, TLS, "GET", "/rev", 200),
        (None, TLS, "GET", "/index.html", 200),
        (None, TLS, "POST", "/feature", 403),
        ("editor", TLS, "POST", "/feature", 403),
        (None, TLS_EDITS, "POST", "/feature", 400),
        ("stranger", TLS_EDITS, "POST", "/feature", 400),
        ("editor", TLS_EDITS, "GET", "/rev", 404),
    ):
        got = Secured(at, who).ask(port, method, target, body if method == "POST" else None)
        if got != want:
            raise fail(
                f"TLS: {method} {target} at {port} by {who} was answered with {got}, not {want}"
            )
    for port in (TLS, TLS_EDITS):
        got = Secured(at, "editor").ask(port, "POST", "/feature", body, Host="evil.example")
        if got != 421:
            raise fail(f"TLS: an edit by another name of the machine at {port} has {got}")
    if ids(ask("GET", "/map", port=PORT)[1]):
        raise fail("TLS: an edit without a certificate was made")
    if Secured(at, "editor").ask(TLS_EDITS, "POST", "/feature", body) != 200:
        raise fail("TLS: an editor's edit is not made")
    if ids(ask("GET", "/map", port=PORT)[1]) != {"added-s"} or add("added-t") != 200:
        raise fail("TLS: an editor's edit is not there")


@trial("tls")
def passwords() -> None:
    """Passwords in the place of certificates, by the lines that the file gives for them."""
    if not shutil.which("openssl"):
        say("openssl is not installed: TLS is not tried")
        return
    text = (DEPLOY / "nginx-tls.conf").read_text()
    given = re.findall(r"write `(auth_basic .*?;)`", text)
    lines = re.findall(r"^    (ssl_client_certificate .*;|ssl_verify_client .*;)$", text, re.M)
    if len(given) != 1 or len(lines) != 2:
        raise fail(f"nginx-tls.conf gives {given} in the place of {lines}")
    with folder() as at:
        at.chmod(0o755)
        make_certificates(at)
        kept = openssl(at, "passwd", "-apr1", "secret").stdout.decode().strip()
        (at / "editors").write_text(f"ann:{kept}\n")
        changes = dict(zip(lines, (given[0], "")))
        here = {one.replace("/etc/maplabel", str(at)): there for one, there in changes.items()}
        here = {one: there.replace("/etc/maplabel", str(at)) for one, there in here.items()}
        with running(at), nginx(at, has_tls=True, others=here):
            for secret, want in ((None, 401), ("wrong", 401), ("secret", 200)):
                fields = {"Authorization": _basic(f"ann:{secret}")} if secret else {}
                got = Secured(at, None).ask(
                    TLS_EDITS, "POST", "/feature", town("added-s"), **fields
                )
                if got != want:
                    raise fail(f"TLS: an edit with the password {secret} has {got}")
                if (ids(ask("GET", "/map", port=PORT)[1]) == {"added-s"}) != (want == 200):
                    raise fail(f"TLS: an edit with the password {secret}, and the map")
    say("nginx with TLS: those with a password edit, and nobody else")


def _basic(text: str) -> str:
    """A name and a password as HTTP has them."""
    return "Basic " + base64.b64encode(text.encode()).decode()
