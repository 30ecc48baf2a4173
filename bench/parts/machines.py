"""Machines with a real systemd as PID 1: `systemd-nspawn --boot` over an overlay of a root folder.

    with Machine(base, "leader") as leader:
        leader.run("systemctl is-system-running --wait")

Nothing is written to the root folder below, and the overlay is gone at the end. A machine has a
network of its own, without any way out; `join` puts a wire between two of them.
"""
import os
import shutil
import signal
import subprocess
import tempfile
import time

PACKAGES = "systemd systemd-sysv dbus python3-minimal python3 openssh-server openssh-client " \
    "socat iproute2 procps"
PROGRAMS = "systemd-nspawn", "nsenter", "mount", "ip"
SECONDS = 60  # after which a command hangs
PATH = "/usr/local/sbin:/usr/local/bin:/usr/sbin:/usr/bin:/sbin:/bin"


class Wrong(Exception):
    """Something is not as it should be."""


class Hangs(Wrong):
    """A command does not end in time."""


def why_not():
    """Why no machine can be had here, or nothing."""
    missing = [name for name in PROGRAMS if shutil.which(name) is None]
    if os.geteuid():
        return "it wants root"
    return f"what is not there: {', '.join(missing)}" if missing else ""


def make_base(folder):
    """A root folder with a minimal Debian and what the units want beside it, unless it is there.
    Why there is none, or nothing."""
    if os.path.isdir(folder):
        return ""
    if shutil.which("debootstrap") is None:
        return "what is not there: debootstrap, and a folder that it made before"
    os.makedirs(os.path.dirname(folder), exist_ok=True)
    made = tempfile.mkdtemp(dir=os.path.dirname(folder))
    words = ["debootstrap", "--variant=minbase", "--include", PACKAGES.replace(" ", ","),
             "bookworm", made]
    done = subprocess.run(words, stdout=subprocess.PIPE, stderr=subprocess.STDOUT, text=True)
    if done.returncode:
        shutil.rmtree(made, ignore_errors=True)
        return f"debootstrap failed: {done.stdout[-400:]}"
    os.chmod(made, 0o755)
    os.rename(made, folder)
    return ""


class Machine:
    """One machine, from its boot to its end."""

    def __init__(self, base, name):
        self.name, self.folder = name, tempfile.mkdtemp(prefix=f"hosed-{name}-")
        os.chmod(self.folder, 0o755)
        self.root = os.path.join(self.folder, "root")
        for part in ("root", "upper", "work"):
            os.mkdir(os.path.join(self.folder, part))
        options = f"lowerdir={base},upperdir={self.folder}/upper,workdir={self.folder}/work"
        subprocess.run(["mount", "-t", "overlay", "overlay", "-o", options, self.root], check=True)
        self.console, self.leader, self.boot = None, None, None

    def __enter__(self):
        try:
            self.start()
        except BaseException:
            self.__exit__()
            raise
        return self

    def start(self):
        self.console = open(os.path.join(self.folder, "console"), "wb")
        self.boot = subprocess.Popen(
            ["systemd-nspawn", "--boot", "--quiet", "--register=no", "--keep-unit",
             "--private-network", f"--machine={self.name}", f"--hostname={self.name}",
             f"--directory={self.root}"],
            stdin=subprocess.DEVNULL, stdout=self.console, stderr=self.console,
            start_new_session=True)
        last = time.monotonic() + SECONDS
        while self.leader is None or not os.path.exists(
                f"/proc/{self.leader}/root/run/systemd/private"):
            self.leader = self._init()
            if time.monotonic() > last or self.boot.poll() is not None:
                with open(self.console.name, "rb") as text:
                    raise Wrong(f"{self.name} does not boot: {text.read()[-400:]!r}")
            time.sleep(0.1)
        self.run("systemctl is-system-running --wait || systemctl is-system-running | "
                 "grep -qx degraded")

    def _init(self):
        """The machine's PID 1 as a process of this one, once it is there."""
        with open(f"/proc/{self.boot.pid}/task/{self.boot.pid}/children", encoding="ascii") as told:
            children = told.read().split()
        for child in children:
            with open(f"/proc/{child}/status", encoding="utf-8") as status:
                spaces = [line.split()[1:] for line in status if line.startswith("NSpid:")]
            if spaces and spaces[0][-1] == "1" and len(spaces[0]) > 1:
                return int(child)
        return None

    def __exit__(self, *_):
        if self.boot is not None and self.boot.poll() is None:
            self.boot.send_signal(signal.SIGTERM)
            try:
                self.boot.wait(5)
            except subprocess.TimeoutExpired:
                if self.leader is not None:
                    os.kill(self.leader, signal.SIGKILL)
                try:
                    self.boot.wait(10)
                except subprocess.TimeoutExpired:
                    self.boot.kill()
                    self.boot.wait()
        if self.console:
            self.console.close()
        subprocess.run(["umount", "--lazy", self.root], check=False)
        shutil.rmtree(self.folder, ignore_errors=True)

    # ---- What is done in it.

    def words(self, *words):
        """The words of a program here that runs one there."""
        return ["nsenter", f"--target={self.leader}", "--mount", "--uts", "--ipc", "--net", "--pid",
                "--root", "env", "-i", "--chdir=/root", f"PATH={PATH}", "HOME=/root", "LC_ALL=C",
                *words]

    def attempt(self, script, given="", seconds=SECONDS):
        """The status of a script of the shell, run by root, and its output with its errors."""
        try:
            done = subprocess.run(
                self.words("bash", "-euo", "pipefail", "-c", script), input=given, text=True,
                stdout=subprocess.PIPE, stderr=subprocess.STDOUT, timeout=seconds,
                errors="replace")
        except subprocess.TimeoutExpired as late:
            raise Hangs(f"{self.name}: after {seconds} s not done: {script}") from late
        return done.returncode, done.stdout

    def run(self, script, given="", seconds=SECONDS):
        """The output of a script that has to go well."""
        status, told = self.attempt(script, given, seconds)
        if status:
            raise Wrong(f"{self.name}: status {status} of {script}\n{told}")
        return told

    def log(self, unit, since=""):
        """What the system's log has of a unit, in whole lines; from a cursor on."""
        after = f"--after-cursor='{since}'" if since else ""
        return self.run(f"journalctl --sync; journalctl --no-pager -o cat -u {unit} {after}")

    def now(self):
        """The cursor of the last line of the system's log."""
        told = self.run("journalctl --sync; journalctl --no-pager -n 0 --show-cursor")
        return told.rpartition("-- cursor: ")[2].strip()

    def until(self, script, what, seconds=SECONDS):
        """Waits until a script goes well."""
        last = time.monotonic() + seconds
        while self.attempt(script)[0]:
            if time.monotonic() > last:
                raise Hangs(f"{self.name}: for {seconds} s not so: {what}")
            time.sleep(0.2)

    def put(self, path, text, mode=0o644):
        """Writes a file of root's."""
        whole = self.root + path
        os.makedirs(os.path.dirname(whole), exist_ok=True)
        with open(whole, "w", encoding="utf-8") as file:
            file.write(text)
        os.chmod(whole, mode)

    def copy(self, source, path):
        os.makedirs(os.path.dirname(self.root + path), exist_ok=True)
        shutil.copy(source, self.root + path)


def join(one, other, network="10.78.0"):
    """A wire between two machines, which have the addresses .1 and .2 of a network there."""
    for machine, number in ((one, 1), (other, 2)):
        machine.wire = f"{network}.{number}"
    subprocess.run(["ip", "link", "add", "wire0", "netns", str(one.leader), "type", "veth",
                    "peer", "name", "wire0", "netns", str(other.leader)], check=True)
    for machine in (one, other):
        machine.run(f"ip address add {machine.wire}/24 dev wire0; ip link set wire0 up")
