"""What docs/DEPLOYMENT.md tells to type, typed as it stands, under a systemd of its own."""

import contextlib
import re
import shutil
import time
from collections.abc import Iterator
from pathlib import Path

from booted import SITE, UNIT, Booted, booted
from maplabel_kit.files import TOP
from packing import made
from stage import fail, ids_in, say, wait_for
from tls import make_certificates
from trials import trial

DEPLOYMENT, POSTGIS = TOP / "docs" / "DEPLOYMENT.md", TOP / "deploy" / "postgis" / "README.md"
STATE = "/var/lib/maplabel"
# What stands before commands that are typed. `nginx -s reload` comes back before any worker has the
# new configuration. Until the old ones are gone they may answer, and those that ask the server
# itself answer 502 during a restart, as they must; so what comes next here waits for their end.
SUDO = """set -e
sudo() { if [ "$1" = -u ]; then runuser -u "$2" -- "${@:3}"; else "$@"; fi; }
nginx() {
    local old one
    old=$(pgrep -P "$(cat /run/nginx.pid)")
    command nginx "$@" || return
    [ "$*" = "-s reload" ] || return 0
    for one in $old; do while kill -0 "$one" 2>/dev/null; do sleep 0.05; done; done
}
"""


def block(page: Path, word: str) -> str:
    """The commands of a page that have a word, as they stand."""
    found = [one for one in re.findall(r"```\n(.*?)```", page.read_text(), re.S) if word in one]
    if len(found) != 1:
        raise fail(f"{page.name} tells {word} in {len(found)} places")
    return str(found[0])


@contextlib.contextmanager
def installed() -> Iterator[Booted | None]:
    """A systemd with a server that is set up by the quick start, or none where that cannot be."""
    with booted() as system:
        if system is not None:
            made(system.root, "maplabel.tar.gz")
            system.run("systemctl start nginx.service")
            system.run(SUDO + "cd /\n" + block(DEPLOYMENT, "useradd"))
        yield system


@trial("systemd")
def units() -> None:
    """A server that is set up as docs/DEPLOYMENT.md says, under systemd and behind nginx: it is
    served, edited, restarted, killed and ended, and nothing is lost but what is told."""
    with installed() as system:
        if system is None:
            return
        for part in (served, planned, killed, confined, walled_in, full_disk, unheard, unfit):
            part(system)


def served(system: Booted) -> None:
    """The pages and the map are served, to those alone who call the machine by a known name."""
    for target, want in (
        ("/", "200"), ("/mercator.html", "200"), ("/style.json", "200"), ("/healthz", "200"),
        ("'/map?rev=0'", "200"), ("/nothing", "404"),
    ):  # fmt: skip
        wait_for(lambda: system.status(SITE + target) == want, f"{target} is not {want}", 20)
    if (got := system.status(f"-H 'Host: other.example' {SITE}/")) != "421":
        raise fail(f"another name of the machine gets {got}")
    if system.add("added-1") != "200" or not system.has("added-1"):
        raise fail("no edit is made")
    wait_for(
        lambda: system.shown("StatusText").startswith("revision "),
        lambda: f"systemctl status tells {system.shown('StatusText')}",
    )
    timers = system.run("systemctl list-timers --no-pager")
    if "maplabel-restart.timer" not in timers or "04:00:00" not in timers:
        raise fail(f"no restart is planned: {timers}")
    say("systemd: by the commands of docs/DEPLOYMENT.md the sample map is served and edited")


def planned(system: Booted) -> None:
    """A reload, and the nightly restart, lose nothing and are no failure."""
    process = system.shown("MainPID")
    for number, words in enumerate(("reload maplabel", "start maplabel-restart.service")):
        system.add(f"added-p{number}", number)
        system.run(f"systemctl {words}")
        wait_for(lambda: system.said("ready: process") == number + 2, "no planned restart")
        if not system.has(f"added-p{number}") or system.shown("MainPID") != process:
            raise fail(f"systemctl {words} loses an edit, or ends run")
    if system.shown("NRestarts") != "0" or system.said("by itself"):
        raise fail("a planned restart is a failure to systemd")
    say("systemd: reload and the nightly restart keep each edit")


def killed(system: Booted) -> None:
    """The server killed is told as critical and started again; `run` killed is started by
    systemd."""
    system.run("pkill -KILL -f 'maplabel serve'")
    wait_for(lambda: system.said("ready: process") == 4, "a server that is killed stays so")
    if [level for level, line in system.journal() if "by itself" in line] != [2]:
        raise fail(f"an end by itself is not critical: {system.journal()[-4:]}")
    system.run(f"systemctl kill --kill-who=main -s KILL {UNIT}")
    wait_for(lambda: system.said("ready: process") == 5, "run is not started again")
    if system.shown("NRestarts") != "1" or not system.has("added-1"):
        raise fail("run that was killed is not started again from the map")
    say("systemd: a server that is killed is told as critical; run that is killed comes again")


def confined(system: Booted) -> None:
    """What the unit starts can write its own folders, and no other."""
    process = system.shown("MainPID")
    for place, can in ((STATE, True), ("/run/maplabel", True), ("/opt/maplabel", False),
                       ("/etc", False), ("/var/lib", False)):  # fmt: skip
        script = f"nsenter -t {process} -m -- touch {place}/tried && echo written || true"
        if (system.run(script) == "written") != can:
            raise fail(f"the unit can write {place}: {not can}")
    say("systemd: the unit writes its own folders alone")


def walled_in(system: Booted) -> None:
    """What the unit starts reaches 127.0.0.1, and no other address, not even of this machine."""
    if "does not support BPF" in system.run("journalctl _PID=1 --no-pager -o cat"):
        say("the system has no firewall by control groups: IPAddressDeny is not tried")
        return
    system.run("ip address add 192.0.2.1/32 dev lo")
    ask = "curl -s -m 3 -o /dev/null -w %{http_code} http://$address:8080/rev || true"
    enter = f"echo $$ >/sys/fs/cgroup{system.shown('ControlGroup')}/cgroup.procs"
    for address, where, want in (
        ("192.0.2.1", ":", "421"), ("127.0.0.1", enter, "200"), ("192.0.2.1", enter, "000"),
    ):  # fmt: skip
        got = system.run(f"address={address}; {where}; {ask}")
        if got != want:
            raise fail(f"from within the unit, or beside it ({where}), {address} gives {got}")
    say("systemd: the unit reaches 127.0.0.1 alone")


DROP_IN = """mkdir -p /run/systemd/system/maplabel.service.d
printf '[Service]\\n{line}\\n' >/run/systemd/system/maplabel.service.d/tried.conf
systemctl daemon-reload
"""


def full_disk(system: Booted) -> None:
    """On a full disk an end takes longer than the unit's own time, and is done once there is room;
    a second signal ends it with loss."""
    script = f"""cp -a {STATE} /tmp/kept
    mount -t tmpfs -o size=4m,mode=755 tmpfs {STATE}; chown maplabel {STATE}
    cp -a /tmp/kept/style.toml /tmp/kept/live.geojson {STATE}"""
    system.run(f"systemctl stop {UNIT}")
    system.run(DROP_IN.format(line="TimeoutStopSec=4") + script)
    for is_given_up in (False, True):
        system.run(f"systemctl reset-failed {UNIT}; systemctl start {UNIT}")
        name, tried = f"added-f{is_given_up}", system.said("tried again every")
        system.run(f"dd if=/dev/zero of={STATE}/filler bs=4k status=none || true")
        if system.add(name) != "200":
            raise fail("no edit is made on a full disk")
        system.run(f"systemctl stop --no-block {UNIT}")
        wait_for(lambda: system.said("tried again every") > tried, "a full disk is not told")
        time.sleep(6)
        if system.shown("ActiveState") != "deactivating":
            raise fail(f"on a full disk the unit is {system.shown('ActiveState')}")
        end = f"systemctl kill {UNIT}" if is_given_up else f"rm {STATE}/filler"
        system.run(end)
        wait_for(lambda: system.shown("ActiveState") in ("inactive", "failed"), "it does not end")
        code = system.shown("ExecMainStatus")
        is_kept = name in system.run(f"cat {STATE}/live.geojson")
        if (code, is_kept) != (("3", False) if is_given_up else ("0", True)):
            raise fail(f"on a full disk, given up: {is_given_up}: status {code}, kept {is_kept}")
        system.run(f"rm -f {STATE}/filler")
    system.run(f"umount {STATE}")
    say("systemd: a full disk at the end is waited for beyond the unit's time, until told again")


def unheard(system: Booted) -> None:
    """`run` that does no more tell that it is alive is ended and started by systemd."""
    system.run(DROP_IN.format(line="WatchdogSec=3") + f"systemctl start {UNIT}")
    before = system.said("ready: process")
    system.run(f"systemctl kill --kill-who=main -s STOP {UNIT}")
    wait_for(lambda: system.said("ready: process") > before, "the watchdog does not bite", 60)
    if system.add("added-w") != "200":
        raise fail("behind the watchdog no edit is made")
    system.run(f"systemctl stop {UNIT}")
    kept = ids_in(str(system.root / STATE.lstrip("/") / "live.geojson"))
    if not {"added-1", "added-p0", "added-p1", "added-w"} <= kept:
        raise fail(f"what is kept at the end: {kept}")
    say("systemd: run that tells nothing is started again; at the end each edit is in the file")


def unfit(system: Booted) -> None:
    """Where nothing can be served, the reason is told as an error, and it is tried again until that
    is mended."""
    system.run(f"cp {STATE}/style.toml /tmp/; echo 'x =' >{STATE}/style.toml")
    system.run(f"systemctl start {UNIT}", is_checked=False)
    wait_for(lambda: system.said("NotToml") > 6, "a start that failed is not tried again", 60)
    levels = {level for level, line in system.journal() if "NotToml" in line}
    if levels != {3}:
        raise fail(f"a style that is spoilt is told by {levels}")
    wait_for(lambda: "NotToml" in system.shown("StatusText"), "the status does not tell why", 30)
    system.run(f"cp /tmp/style.toml {STATE}/")
    wait_for(lambda: system.has("added-w"), "once the style is mended the map is not served", 60)
    say("systemd: a style that is spoilt is told, and once it is mended the map is served")


@trial("systemd")
def fronts() -> None:
    """HAProxy, nginx before HAProxy, TLS; and the bare port closed."""
    with installed() as system:
        if system is None:
            return
        for part in (by_haproxy, by_both, by_tls, closed):
            part(system)


HAPROXY = "http://localhost:8081"


def by_haproxy(system: Booted) -> None:
    """HAProxy by itself, as Debian starts it."""
    commands = re.findall(r"`(sudo cp deploy/haproxy.cfg [^`]*)`", DEPLOYMENT.read_text())
    if len(commands) != 1:
        raise fail(f"{DEPLOYMENT.name} tells how to start HAProxy in {len(commands)} places")
    system.run(f"{SUDO}cd /opt/maplabel\n{commands[0]}")
    wait_for(lambda: system.status(f"{HAPROXY}/rev") == "200", "HAProxy does not answer", 20)
    if system.add("added-h", 1, HAPROXY) != "200" or not system.has("added-h"):
        raise fail("no edit is made by way of HAProxy")
    say("systemd: HAProxy with deploy/haproxy.cfg serves and edits")


def by_both(system: Booted) -> None:
    """nginx before HAProxy, which listens for this machine alone."""
    first, second = block(DEPLOYMENT, "127.0.0.1:8081").strip().splitlines()
    system.run(
        f"""{SUDO}cd /opt/maplabel
        {first} >/etc/nginx/conf.d/maplabel.conf
        {second} >/etc/haproxy/haproxy.cfg
        systemctl restart haproxy.service; nginx -t && nginx -s reload"""
    )
    wait_for(lambda: system.status(f"{SITE}/rev") == "200", "nginx before HAProxy is silent", 20)
    if system.add("added-b", 2) != "200" or not system.has("added-b"):
        raise fail("no edit is made by way of nginx and HAProxy")
    if "127.0.0.1:8081" not in (doors := system.run("ss -ltn")) or "0.0.0.0:8081" in doors:
        raise fail(f"HAProxy listens for others: {doors}")
    system.run("systemctl reload maplabel.service")
    told = [system.status(f"{SITE}/rev") for _ in range(40)]
    if set(told) != {"200"}:
        raise fail(f"a restart is seen behind both: {set(told)}")
    say("systemd: nginx before HAProxy serves and edits, and a restart is not seen")


def by_tls(system: Booted) -> None:
    """The commands for TLS, with certificates of this test."""
    place, name = system.root / "etc/maplabel", "names.example.org"
    place.mkdir(exist_ok=True)
    make_certificates(place, name)
    for one in ("editor.crt", "editor.key"):
        shutil.copy(place / one, system.root / "opt/maplabel" / one)
    with open(system.root / "etc/hosts", "a", encoding="ascii") as file:
        file.write(f"127.0.0.1 {name}\n")
    system.add("added-s", 3, "http://localhost:1")  # writes the file, and reaches nobody
    shutil.copy(system.root / "feature.json", system.root / "opt/maplabel/feature.json")
    commands = block(DEPLOYMENT, "nginx-tls.conf |").rstrip()
    said = system.run(
        f"{SUDO}cd /opt/maplabel; export CURL_CA_BUNDLE=/etc/maplabel/server.crt\n"
        + commands.replace("\ncurl ", "\ncurl -s ")
    )
    if '"rev"' not in said or not system.has("added-s"):
        raise fail(f"the commands for TLS make no edit: {said[-200:]}")
    certified = "--cacert /etc/maplabel/server.crt"
    for target, want in (("/rev", "200"), ("/feature", "403"), ("/style.json", "200")):
        if (got := system.status(f"{certified} https://{name}{target}")) != want:
            raise fail(f"TLS: {target} gets {got}")
    say("systemd: by the commands for TLS names are read, and edited with a certificate")


def closed(system: Booted) -> None:
    """The rules of nftables keep others from the bare port, and not from the proxy."""
    if not shutil.which("nft"):
        say("nft is not installed: the bare port's rules are not tried")
        return
    nobody = "setpriv --reuid=nobody --regid=nogroup --clear-groups -- curl -s -m 5"
    bare, proxied = f"{nobody} http://127.0.0.1:47100/rev || true", f"{nobody} {SITE}/rev"
    before = system.run(bare)
    system.run(SUDO + block(DEPLOYMENT, "nft add"))
    if '"rev"' not in before or system.run(bare) or '"rev"' not in system.run(proxied):
        raise fail("the rules of nftables do not close the bare port, or close the proxy")
    saved = system.said("saved revision")
    system.add("added-n", 4)
    wait_for(lambda: system.said("saved revision") > saved, "the rules keep run from the server")
    say("systemd: with the rules of nftables others reach the proxy alone, and run still saves")


@trial("systemd")
def follower() -> None:
    """The unit of the follower of a table, set up by the commands of its page."""
    if not shutil.which("pg_createcluster"):
        say("postgresql is not installed: the follower's unit is not tried")
        return
    with installed() as system:
        if system is None:
            return
        follow(system)


TABLE = """set -e; cd /
pg_dropcluster --stop 15 main 2>/dev/null || true
pg_createcluster 15 main
systemctl start postgresql@15-main.service
runuser -u postgres -- createdb gis
runuser -u postgres -- psql -q -d gis -c 'CREATE EXTENSION postgis' \
    -c 'CREATE TABLE towns (id int PRIMARY KEY, geom geometry, name text, place text)' \
    -c 'CREATE ROLE maplabel LOGIN'
"""


def follow(system: Booted) -> None:
    """The table is attached and followed; the follower is killed, the table detached and attached
    again, and the follower ended."""
    system.run(TABLE)
    lines = block(POSTGIS, "apt-get install").splitlines()
    commands = [line for line in lines if line.startswith("sudo -u postgres psql")]
    grants = block(POSTGIS, "GRANT SELECT ON towns").replace("\n", " ")
    commands.append(f'sudo -u postgres psql -q -d gis -v ON_ERROR_STOP=1 -c "{grants}"')
    system.run(SUDO + "cd /opt/maplabel\n" + "\n".join(commands))
    system.run(
        "cp /opt/maplabel/deploy/postgis/maplabel-follow.service /etc/systemd/system/;"
        "systemctl daemon-reload; systemctl start maplabel-follow.service"
    )
    psql = SUDO + "sudo -u postgres psql -q -d gis -c "
    detach = psql + """\"SELECT maplabel.detach('towns')\"; sleep 5; cd /opt/maplabel; """
    for number, before in enumerate(
        ("", "systemctl kill -s KILL maplabel-follow.service", detach + commands[1])
    ):
        system.run(before)
        row = f"({number}, 'SRID=4326;POINT({number} 1)', 'Town {number}', 'city')"
        system.run(f'{psql}"INSERT INTO towns VALUES {row}"')
        wait_for(lambda: system.has(str(number)), f"row {number} of the table is not served", 30)
    system.run("systemctl stop maplabel-follow.service")
    shown = "systemctl show maplabel-follow.service --value -p ExecMainStatus -p Result"
    if (told := system.run(shown).split()) != ["success", "0"]:
        raise fail(f"the follower ends with {told}")
    say("systemd: the follower's unit follows a table, also when killed or attached again")
