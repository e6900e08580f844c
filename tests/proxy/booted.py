"""A systemd of its own in namespaces, over this machine's files, of which nothing is changed."""

import contextlib
import json
import os
import shutil
import subprocess
from collections.abc import Iterator
from pathlib import Path

from maplabel_kit.files import folder
from maplabel_kit.server import Child
from stage import fail, say, town, wait_for

WANTED = ("unshare", "nsenter", "pivot_root", "mount", "ip", "nginx", "curl", "systemctl")
SYSTEMD = Path("/lib/systemd/systemd")
# What would reach for the machine around it, or is not wanted here.
MASKED = (
    "systemd-sysctl.service", "systemd-modules-load.service", "systemd-udevd.service",
    "systemd-udevd-kernel.socket", "systemd-udevd-control.socket", "systemd-udev-trigger.service",
    "systemd-timesyncd.service", "systemd-networkd.service", "systemd-resolved.service",
    "systemd-remount-fs.service", "systemd-sysusers.service", "systemd-binfmt.service",
    "systemd-random-seed.service", "systemd-firstboot.service", "kmod-static-nodes.service",
    "proc-sys-fs-binfmt_misc.automount", "dev-hugepages.mount", "dev-mqueue.mount",
    "sys-kernel-debug.mount", "sys-kernel-tracing.mount", "sys-kernel-config.mount",
    "sys-fs-fuse-connections.mount", "apparmor.service", "keyboard-setup.service",
)  # fmt: skip
TARGET = """[Unit]
Description=What is tried
DefaultDependencies=no
Requires=sysinit.target
After=sysinit.target
"""
ENTER = """set -e
echo $$ >{group}/cgroup.procs
exec unshare --fork --pid --mount --uts --ipc --net --cgroup --kill-child sh -c '{boot}'
"""
BOOT = """set -e
mount --make-rprivate /
cd {root}
mount -t proc proc proc
mount -t sysfs -o ro sysfs sys
mount -t cgroup2 cgroup2 sys/fs/cgroup
mount -t tmpfs -o mode=755 tmpfs dev
for name in null zero full random urandom tty; do cp -a /dev/$name dev/$name; done
mkdir dev/pts dev/shm dev/mqueue dev/hugepages
mount -t devpts -o newinstance,ptmxmode=0666 devpts dev/pts
ln -s pts/ptmx dev/ptmx
mount -t tmpfs -o mode=755 tmpfs run
mount -t tmpfs -o mode=1777 tmpfs tmp
ip link set lo up
mkdir -p .old
pivot_root . .old
umount -l .old
exec env -i container=other PATH=/usr/sbin:/usr/bin:/sbin:/bin {systemd} --unit=tried.target
"""
UNIT = "maplabel.service"
SITE = "http://localhost:8080"


class Booted:
    """A systemd that runs, and commands beside it."""

    def __init__(self, root: Path, process: int) -> None:
        self.root = root
        children = Path(f"/proc/{process}/task/{process}/children")
        wait_for(lambda: children.read_text() != "", "no namespaces are made", 20)
        self._first = int(children.read_text())
        wait_for(self._is_up, "systemd does not come up", 60)

    def _is_up(self) -> bool:
        return self.run("systemctl is-system-running || true") in ("running", "degraded")

    def run(self, script: str, is_checked: bool = True) -> str:
        """What a script of the shell prints there."""
        words = ["nsenter", "-t", str(self._first), "-a", "--", "bash", "-c", script]
        done = subprocess.run(words, capture_output=True, text=True, timeout=200, check=False)
        if is_checked and done.returncode != 0:
            raise fail(f"{script.strip()[-300:]}: {done.stdout[-500:]} {done.stderr[-500:]}")
        return done.stdout.strip()

    def shown(self, name: str) -> str:
        """A property of the unit."""
        return self.run(f"systemctl show {UNIT} --value -p {name}")

    def status(self, words: str) -> str:
        """The status of a reply to curl."""
        return self.run(f"curl -s -m 20 -o /dev/null -w '%{{http_code}}' {words}", False)

    def add(self, name: str, number: int = 0, site: str = SITE) -> str:
        """The status of an edit by way of a proxy."""
        (self.root / "feature.json").write_text(town(name, number))
        return self.status(f"-H 'X-Edit: 1' -d @/feature.json {site}/feature")

    def has(self, name: str) -> bool:
        """Whether a town is served."""
        return self.status(f"'http://localhost:47100/why?id={name}'") == "200"

    def journal(self) -> list[tuple[int, str]]:
        """The lines of the unit, each with its level."""
        lines = self.run(f"journalctl -u {UNIT} -o json --no-pager").splitlines()
        told = [json.loads(line) for line in lines]
        return [(int(one["PRIORITY"]), str(one["MESSAGE"])) for one in told]

    def said(self, text: str) -> int:
        """How many lines of the unit have a text."""
        return sum(text in line for _, line in self.journal())


def group_of_systemd() -> Path | None:
    """Where a folder for control groups can be made."""
    for line in Path("/proc/mounts").read_text().splitlines():
        if line.split()[2] == "cgroup2":
            return Path(line.split()[1]) / f"maplabel-tried-{os.getpid()}"
    return None


@contextlib.contextmanager
def mounted(*words: str) -> Iterator[None]:
    """A mount, as long as the block."""
    subprocess.run(["mount", *words], capture_output=True, check=True)
    try:
        yield
    finally:
        subprocess.run(["umount", "-l", words[-1]], check=True)


@contextlib.contextmanager
def grouped(group: Path) -> Iterator[None]:
    """A control group, which is taken away with all in it once their processes are gone."""

    def is_gone() -> bool:
        for place, _, _ in os.walk(group, topdown=False):
            with contextlib.suppress(OSError):
                os.rmdir(place)
        return not group.exists()

    group.mkdir()
    try:
        yield
    finally:
        wait_for(is_gone, f"{group} cannot be taken away")


@contextlib.contextmanager
def booted() -> Iterator[Booted | None]:
    """A systemd over this machine's files, or none where that cannot be."""
    group = group_of_systemd()
    lacking = [name for name in WANTED if not shutil.which(name)]
    if os.geteuid() != 0 or lacking or group is None or not SYSTEMD.exists():
        say(f"no systemd can be started here ({', '.join(lacking) or 'no root, no cgroup2'})")
        yield None
        return
    with folder() as at, contextlib.ExitStack() as stack:
        root = at / "root"
        how = f"lowerdir=/,upperdir={at}/upper,workdir={at}/work"
        try:
            stack.enter_context(
                mounted("-t", "tmpfs", "-o", "size=512m,mode=755", "tmpfs", str(at))
            )
            for name in ("upper", "work", "root"):
                (at / name).mkdir()
            stack.enter_context(mounted("-t", "overlay", "-o", how, "overlay", str(root)))
        except subprocess.CalledProcessError:
            say("no systemd can be started here: nothing can be mounted")
            yield None
            return
        prepare(root)
        stack.enter_context(grouped(group))
        boot = BOOT.format(root=root, systemd=SYSTEMD)
        script = ENTER.format(group=group, boot=boot)
        child = stack.enter_context(Child(["sh", "-c", script], stdout=subprocess.DEVNULL))
        yield Booted(root, child.process.pid)


def prepare(root: Path) -> None:
    """Takes away what this machine starts by itself, and what was set up here before."""
    units = root / "etc/systemd/system"
    for path in units.iterdir():
        if path.suffix in (".wants", ".service", ".timer"):
            shutil.rmtree(path) if path.is_dir() and not path.is_symlink() else path.unlink()
    for name in MASKED:
        (units / name).unlink(missing_ok=True)
        (units / name).symlink_to("/dev/null")
    (units / "tried.target").write_text(TARGET)
    for place in ("opt/maplabel", "var/lib/maplabel", "etc/nginx/conf.d"):
        shutil.rmtree(root / place, ignore_errors=True)
    for place in ("opt", "etc/nginx/conf.d"):
        (root / place).mkdir(exist_ok=True)
    (root / "etc/fstab").write_text("")
    (root / "etc/machine-id").write_text("0123456789abcdef0123456789abcdef\n")
