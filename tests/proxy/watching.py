"""What an operator sees: messages to systemd, levels of lines, figures for Prometheus, and the
units."""

import contextlib
import http.client
import json
import os
import pwd
import re
import shutil
import signal
import socket
import subprocess
import tempfile
import time
from pathlib import Path
from urllib.parse import quote

from maplabel_kit.files import folder
from maplabel_kit.ports import HOST
from maplabel_kit.server import Child
from maplabel_run.process import opened
from stage import (
    DEPLOY,
    PORT,
    Run,
    add,
    copy_map,
    fail,
    hold,
    low_ports,
    program,
    running,
    say,
    wait_for,
)
from trials import trial

Done = subprocess.CompletedProcess[bytes]
UNITS = ("maplabel.service", "maplabel-restart.service", "maplabel-restart.timer")
EXPOSURE = 2.0  # what systemd-analyze security may tell at most


def messages(told: socket.socket, seconds: float) -> list[str]:
    """All lines that come within so many seconds."""
    found, until = [], time.monotonic() + seconds
    while (left := until - time.monotonic()) > 0:
        told.settimeout(left)
        with contextlib.suppress(TimeoutError):
            found += told.recv(4096).decode().splitlines()
    return found


@trial("watching")
def systemd_messages() -> None:
    """What systemd is told: ready, alive, how things stand, restarts and the end."""
    with folder() as at, socket.socket(socket.AF_UNIX, socket.SOCK_DGRAM) as told:
        told.bind(str(at / "notify"))
        env = {"NOTIFY_SOCKET": str(at / "notify"), "WATCHDOG_USEC": "2000000"}
        run = Run(at, "--save", "0.5", env=env | {"JOURNAL_STREAM": "8:1"})
        try:
            begun = messages(told, 2)
            run.process.send_signal(signal.SIGHUP)
            restarted = messages(told, 3)
            with hold():
                held = messages(told, 9)
            run.process.terminate()
            ended = messages(told, 2)
        finally:
            run.surely_end()
        for name, lines, wanted in (
            ("at the start", begun, ["READY=1", "WATCHDOG=1", "STATUS=revision 0"]),
            ("at a restart", restarted, ["RELOADING=1", "MONOTONIC_USEC=", "READY=1"]),
            ("while it is held", held, ["held by one connection", "NOT SAVED", "WATCHDOG=1"]),
            ("at the end", ended, ["STOPPING=1"]),
        ):
            for one in wanted:
                if not any(one in line for line in lines):
                    raise fail(f"systemd is not told {one} {name}: {lines}")
        if not all(re.match(r"<[2-5]>run: ", line) for line in run.lines()):
            raise fail(f"lines without a level: {run.lines()}")
        if not any(line.startswith("<2>") and "no save" in line for line in run.lines()):
            raise fail(f"a server that is held is no critical line: {run.lines()}")
    say("run: systemd is told READY, STATUS, WATCHDOG, RELOADING and STOPPING; lines have levels")


def figures(path: Path) -> dict[str, float]:
    """The figures of a file for Prometheus, by name."""
    found = {}
    for line in path.read_text().splitlines():
        if not line.startswith("#"):
            name, value = line.rsplit(" ", 1)
            found[name] = float(value)
    return found


@trial("watching")
def figures_file() -> None:
    """The figures are those that were brought about."""
    before = opened()
    with folder() as at, running(at, "--save", "0.5", "--metrics", at / "x.prom") as run:
        path = at / "x.prom"
        for number in range(3):
            add(f"added-{number}", number, PORT)
        wait_for(lambda: path.exists() and figures(path)["maplabel_revision"] == 3, "no revision 3")
        age = time.time() - figures(path)["maplabel_saved_timestamp_seconds"]
        run.process.send_signal(signal.SIGHUP)
        restarts = 'maplabel_restarts_total{why="planned"}'
        wait_for(lambda: figures(path)[restarts] == 1, "a planned restart is not counted")
        os.kill(run.server(), signal.SIGKILL)
        ends = 'maplabel_restarts_total{why="ended"}'
        wait_for(lambda: figures(path)[ends] == 1, "an end is not counted")
        with hold():
            wait_for(lambda: figures(path)["maplabel_held_seconds"] > 5, "held is not told")
        left = figures(path)["maplabel_connections_left"]
        if not 0 <= age < 12 or not 1_000_000 - (opened() - before) <= left < 1_000_000:
            raise fail(f"saved {age:.1f} s ago, {left} connections left")
    say("run: the figures of a file tell revisions, saves, restarts, and a server that is held")


@trial("watching")
def prometheus() -> None:
    """Prometheus reads the figures by way of the node exporter, and its alarm comes."""
    if not shutil.which("prometheus") or not shutil.which("prometheus-node-exporter"):
        say("prometheus or its node exporter is not installed: no scrape is tried")
        return
    exporter, server = low_ports(2)
    with folder() as at, contextlib.ExitStack() as stack:
        (at / "text").mkdir()
        rules = DEPLOY / "maplabel-alarms.yml"
        (at / "prometheus.yml").write_text(
            f"global: {{scrape_interval: 1s, evaluation_interval: 1s}}\nrule_files: [{rules}]\n"
            "scrape_configs:\n- job_name: node\n  static_configs:\n"
            f"  - targets: ['127.0.0.1:{exporter}']\n"
        )
        options = ("--save", "1", "--metrics", at / "text" / "maplabel.prom")
        run = stack.enter_context(running(at, *options))
        for words in (
            ["prometheus-node-exporter", f"--web.listen-address=127.0.0.1:{exporter}",
             "--collector.disable-defaults", "--collector.textfile",
             f"--collector.textfile.directory={at}/text"],
            ["prometheus", f"--config.file={at}/prometheus.yml", f"--storage.tsdb.path={at}/data",
             f"--web.listen-address=127.0.0.1:{server}"],
        ):  # fmt: skip
            stack.enter_context(Child(words))
        add("added-1", 1, PORT)
        wait_for(
            lambda: queried(server, "maplabel_revision") == 1, "no scrape tells revision 1", 60
        )
        wait_for(lambda: queried(server, "maplabel_up") == 1, "no scrape tells that it is up")
        alarms = 'count(ALERTS{alertname="MaplabelHeld"})'
        if queried(server, alarms) is not None:
            raise fail("an alarm comes though nothing is wrong")
        with hold():
            wait_for(lambda: queried(server, alarms) == 1, "no alarm for a server that is held", 90)
        if run.process.poll() is not None:
            raise fail("run ended")
    say(
        "Prometheus reads the figures by way of the node exporter; the alarm of a held server comes"
    )


# Figures that bring about each alarm; values at every ten seconds.
FILE = 'node_textfile_mtime_seconds{file="/run/maplabel/maplabel.prom"}'
BROUGHT = (
    ("MaplabelDown", {"maplabel_up": "0x30", FILE: "0+10x30"}, "2m"),
    ("MaplabelDown", {"maplabel_up": "1x30", FILE: "0x30"}, "2m"),
    ("MaplabelNotSaved", {"maplabel_saved_timestamp_seconds": "0x30"}, "2m"),
    ("MaplabelHeld", {"maplabel_held_seconds": "0+10x30"}, "40s"),
    ("MaplabelStartedAgain", {'maplabel_restarts_total{why="ended"}': "0 0 1x30"}, "2m"),
    ("MaplabelStartedAgain", {'maplabel_restarts_total{why="hung"}': "0 0 1x30"}, "2m"),
    ("MaplabelConnectionsLow", {"maplabel_connections_left": "99999x90"}, "6m"),
)
WELL = {
    "maplabel_up": "1x90",
    FILE: "0+10x90",
    "maplabel_saved_timestamp_seconds": "0+10x90",
    "maplabel_held_seconds": "20x90",
    'maplabel_restarts_total{why="planned"}': "0+1x90",
    'maplabel_restarts_total{why="ended"}': "1x90",
    "maplabel_connections_left": "100000x90",
}


@trial("watching")
def alarms() -> None:
    """Each alarm comes by the figures that it is for, and none where all is well, as Prometheus'
    own tool reckons them."""
    if not shutil.which("promtool"):
        say("promtool is not installed: the alarms are not reckoned")
        return
    rules = DEPLOY / "maplabel-alarms.yml"
    told = dict(re.findall(r"alert: (\w+)\n(?:.*\n)*?.*summary: (\".*\")", rules.read_text()))
    with folder() as at:
        tests = [_reckoned(name, series, when, told[name]) for name, series, when in BROUGHT]
        tests += [_reckoned(name, WELL, "10m", None) for name in told]
        lines = [f"rule_files: [{rules}]", "evaluation_interval: 10s", "tests:", *tests]
        (at / "tests.yml").write_text("\n".join(lines) + "\n")
        words = ["promtool", "test", "rules", str(at / "tests.yml")]
        done = subprocess.run(words, capture_output=True, text=True, check=False)
        if done.returncode != 0:
            raise fail(f"promtool test rules: {done.stdout} {done.stderr}")
    if set(told) != {name for name, _, _ in BROUGHT}:
        raise fail(f"an alarm is not tried: {set(told)}")
    page = (DEPLOY.parent / "docs" / "DEPLOYMENT.md").read_text()
    rows = dict(re.findall(r"^\| (Maplabel\w+) \| `([^`]*)`", page, re.M))
    kept = dict(re.findall(r"alert: (\w+)\n    expr: (.*)", rules.read_text()))
    if rows.keys() != told.keys() or any(rows[name] not in kept[name] for name in rows):
        raise fail(f"docs/DEPLOYMENT.md gives other alarms: {rows}, not {kept}")
    say(f"promtool: each of {len(told)} alarms comes when it should, and not when all is well")


def _reckoned(name: str, series: dict[str, str], when: str, summary: str | None) -> str:
    """A test of promtool: with these figures the alarm is there at that time, or not."""
    given = [f"  - {{series: '{one}', values: '{values}'}}" for one, values in series.items()]
    labels = [found for one in series for found in re.findall(r"(why|file)=(\"[^\"]*\")", one)]
    # The alarm has the labels of its figures; of MaplabelDown those of what is not as it should be.
    is_up = series.get("maplabel_up", "").startswith("1")
    mine = [f"{key}: {value}" for key, value in labels if key == "why" or is_up]
    alert = f"{{exp_labels: {{{', '.join(mine)}}}, exp_annotations: {{summary: {summary}}}}}"
    wanted = f"[{alert}]" if summary else "[]"
    return "\n".join(
        [
            "- interval: 10s",
            "  input_series:",
            *given,
            "  alert_rule_test:",
            f"  - {{eval_time: {when}, alertname: {name}, exp_alerts: {wanted}}}",
        ]
    )


def queried(port: int, text: str) -> float | None:
    """The value of an expression, as Prometheus tells it, if it has one."""
    link = http.client.HTTPConnection(HOST, port, timeout=10)
    try:
        link.request("GET", "/api/v1/query?query=" + quote(text))
        found = json.loads(link.getresponse().read())["data"]["result"]
        return float(found[0]["value"][1]) if found else None
    except (OSError, ValueError, KeyError, http.client.HTTPException):
        return None
    finally:
        link.close()


@trial("units")
def hardened() -> None:
    """The units as systemd reads them, and how much of the machine they leave open."""
    if not shutil.which("systemd-analyze"):
        say("systemd-analyze is not installed: the units are not read")
        return
    top = str(DEPLOY.parent)
    with tempfile.TemporaryDirectory() as name:
        at = Path(name)
        units = [*(DEPLOY / one for one in UNITS), DEPLOY / "postgis" / "maplabel-follow.service"]
        for path in units:
            (at / path.name).write_text(path.read_text().replace("/opt/maplabel", top))
        made = [str(at / path.name) for path in units]
        done = subprocess.run(
            ["systemd-analyze", "verify", *made], capture_output=True, text=True, check=False
        )
        if done.returncode != 0 or done.stderr.strip():
            raise fail(f"systemd-analyze verify: {done.stderr}")
        told = []
        for unit in made:
            if unit.endswith(".service"):
                told.append(f"{Path(unit).name} {exposure(unit):.1f}")
    check_times()
    say(f"units: systemd-analyze verify finds nothing; exposure: {', '.join(told)}")


def exposure(unit: str) -> float:
    """What `systemd-analyze security` tells of a unit."""
    words = ["systemd-analyze", "security", "--offline=true", "--no-pager", unit]
    done = subprocess.run(words, capture_output=True, text=True, check=False)
    found = re.search(r"Overall exposure level for \S+: ([\d.]+)", done.stdout)
    if not found:
        raise fail(f"systemd-analyze security says nothing of {unit}: {done.stderr}")
    if float(found[1]) > EXPOSURE:
        raise fail(f"{unit} has the exposure {found[1]}")
    return float(found[1])


def check_times() -> None:
    """The unit waits longer for an end than `run` waits for a client that holds the server."""
    text = (DEPLOY / "maplabel.service").read_text()
    stop = int(re.findall(r"^TimeoutStopSec=(\d+)$", text, re.M)[0])
    words = [str(DEPLOY / "run"), "--help"]
    said = subprocess.run(words, capture_output=True, text=True, check=True).stdout
    wait = int(re.findall(r"with loss\s+\((\d+)\)", said)[0])
    if stop <= wait:
        raise fail("the unit ends deploy/run before that has waited")


GUARDED = """
set -e
ip link set lo up
"$MAPLABEL" serve {style} {map} {port} 100 >{folder}/said 2>/dev/null & server=$!
for _ in $(seq 100); do grep -q ready {folder}/said && break; sleep 0.1; done
{rules}
curl -s -m 10 http://127.0.0.1:{port}/rev >{folder}/root
setpriv --reuid=nobody --regid=nogroup --clear-groups -- \\
    curl -s -m 10 http://127.0.0.1:{port}/rev >{folder}/nobody || true
kill $server
"""


@trial("units")
def bare_port() -> None:
    """The rules of nftables that docs/DEPLOYMENT.md gives keep other users from the bare port."""
    if not shutil.which("nft") or os.geteuid() != 0:
        say("nft is not installed, or this is not root: the bare port's rules are not tried")
        return
    text = (DEPLOY.parent / "docs" / "DEPLOYMENT.md").read_text()
    rules = re.findall(r"^sudo (nft add .*)$", text, re.M)
    if len(rules) != 3:
        raise fail(f"docs/DEPLOYMENT.md gives {len(rules)} rules of nftables")
    with folder() as at:
        at.chmod(0o777)
        style, path = copy_map(at)
        lines = "\n".join(_for_users(rule) for rule in rules).replace("47100", str(PORT))
        script = GUARDED.format(folder=at, style=style, map=path, port=PORT, rules=lines)
        words = ["unshare", "-n", "sh", "-c", script]
        done = subprocess.run(words, capture_output=True, text=True, timeout=120, check=False)
        root, nobody = (at / "root").read_bytes(), (at / "nobody").read_bytes()
        if done.returncode != 0 or b'"rev"' not in root or nobody:
            raise fail(f"rules of nftables: {done.stderr}; root got {root!r}, nobody {nobody!r}")
    say("nft: with the rules that are given another user does not reach the bare port")


def _for_users(rule: str) -> str:
    """The rule without the users that this machine does not have."""
    for name in ("maplabel", "www-data", "haproxy"):
        try:
            pwd.getpwnam(name)
        except KeyError:
            rule = rule.replace(f" {name},", "").replace(f", {name} ", " ")
    return rule


STACKS = {"follow": 2048, "pipe": 64}  # kibibytes with which a command does all that it has to


@trial("units")
def stack() -> None:
    """`follow` judges a state of 32,000 towns with a stack of 2 MiB, and what a server does needs
    far less; with too little the system ends `follow`."""
    with folder() as at:
        style, path = copy_map(at, 32_000)
        states = at / "states"
        asked = b"GET /state HTTP/1.1\r\nHost: localhost\r\n\r\n"
        said = _run_within(STACKS["pipe"], ["pipe", style, path], asked)
        states.write_bytes(said.stdout.partition(b"\r\n\r\n")[2])
        done = _run_within(STACKS["follow"], ["follow", str(states)])
        if done.returncode != 0 or not done.stdout.startswith(b"adopted 0 32000\n"):
            raise fail(f"follow with 2 MiB: {done.returncode}, {done.stdout[:100]!r}")
        less = _run_within(STACKS["follow"] // 2, ["follow", str(states)])
        if less.returncode != -signal.SIGSEGV:
            raise fail(f"follow with 1 MiB ends with {less.returncode}: it needs less than is told")
    say("follow judges 32,000 towns with a stack of 2 MiB, pipe serves them with 64 KiB")


def _run_within(kibibytes: int, words: list[str], data: bytes = b"") -> Done:
    """A run of the program with so much stack."""
    limit = f'ulimit -s {kibibytes} && exec "$@"'
    command = ["sh", "-c", limit, "sh", program(), *words]
    return subprocess.run(command, input=data, capture_output=True, check=False)
