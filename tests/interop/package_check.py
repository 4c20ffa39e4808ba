"""Installs the Debian package, starts relayd as its unit does, passes bytes through it, and removes it. Run by tests/interop/in_a_copy.

    package_check.py PACKAGE
"""
import os
import pathlib
import pwd
import shlex
import signal
import socket
import subprocess
import sys

sys.path.insert(0, str(pathlib.Path(__file__).resolve().parent))
sys.dont_write_bytecode = True
import turn

ROOT = pathlib.Path(__file__).resolve().parents[2]
CREDENTIALS = pathlib.Path("/etc/mudsluice/credentials")
DENIED = pathlib.Path("/etc/mudsluice/denied")
UNIT = pathlib.Path("/lib/systemd/system/relayd.service")


def run(*words):
    done = subprocess.run(words, capture_output=True, text=True, check=False)
    assert done.returncode == 0, (words, done.stdout, done.stderr)
    return done.stdout + done.stderr


def unit_lines(name):
    return [line.split("=", 1)[1] for line in UNIT.read_text().splitlines() if line.startswith(f"{name}=")]


def command(name, options):
    """A command of the unit, with the options of the environment file."""
    words = []
    for word in shlex.split(unit_lines(name)[0]):
        words += shlex.split(options) if word == "$RELAYD_OPTIONS" else [word]
    return words


def as_unit(user, words):
    """The user, and no rights beside it, as the unit has it."""
    return ["setpriv", "--reuid", user, "--regid", user, "--clear-groups", "--no-new-privs", "--bounding-set=-all", *words]


def passes():
    peer = socket.socket(socket.AF_INET, socket.SOCK_DGRAM)
    peer.bind(("127.0.0.1", 0))
    peer.settimeout(5)
    client = turn.Client(("127.0.0.1", 3478))
    client.allocate()
    client.bind(0x4000, peer.getsockname())
    client.channel(0x4000, b"through the package")
    assert peer.recv(100) == b"through the package"
    try:
        client.permit("192.0.2.1")
    except turn.TurnError as error:
        assert error.code == 403, error
    else:
        raise AssertionError("a denied peer is permitted")


def hears(manager, word):
    """Waits for a word to the service manager."""
    while manager.recv(100) != word:
        pass


def service(user):
    """Starts relayd by the unit's lines, with a denied prefix, and ends it."""
    options = shlex.split(pathlib.Path("/etc/default/mudsluice").read_text(), comments=True)[0].split("=", 1)[1]
    options += f" --denied {DENIED}"
    folder = pathlib.Path("/run") / unit_lines("RuntimeDirectory")[0]
    folder.mkdir()
    os.chown(folder, pwd.getpwnam(user).pw_uid, pwd.getpwnam(user).pw_gid)
    run(*as_unit(user, command("ExecStartPre", options)))
    manager = socket.socket(socket.AF_UNIX, socket.SOCK_DGRAM)
    manager.bind("/run/notify")
    os.chmod("/run/notify", 0o666)
    manager.settimeout(10)
    environment = {"NOTIFY_SOCKET": "/run/notify", "PATH": os.environ["PATH"]}
    process = subprocess.Popen(as_unit(user, command("ExecStart", options)), env=environment, cwd="/")
    try:
        hears(manager, b"READY=1")
        passes()
        hears(manager, b"WATCHDOG=1")
        process.send_signal(signal.SIGUSR1)
        process.send_signal(signal.SIGHUP)
        hears(manager, b"WATCHDOG=1")
        assert "1 of 64 allocations" in (folder / "status").read_text()
        assert "relayd_allocations 1\n" in (folder / "metrics.prom").read_text()
        process.terminate()
        hears(manager, b"STOPPING=1")
        assert process.wait(2) == 0
    finally:
        process.kill()
        process.wait()


def denied(user):
    """The package's list denies nobody, and the service's user can read it. A prefix is added to it."""
    assert "denied prefixes: none" in run(*as_unit(user, command("ExecStartPre", f"--listen 127.0.0.1:3478 --denied {DENIED}")))
    DENIED.write_text(DENIED.read_text() + "192.0.2.0/24\n")


def credentials(user):
    """A user is added where the package has its files, and the service's user can read it. Not where relayd was built without its front end."""
    if subprocess.run([ROOT / "host/relayd/packages", "--there"], check=False).returncode != 0:
        return
    done = subprocess.run(["/usr/sbin/relayd", "user", "add", "alice"], input="opensesame\n", capture_output=True, text=True, check=False)
    assert done.returncode == 0, done
    os.chown(CREDENTIALS, 0, pwd.getpwnam(user).pw_gid)
    CREDENTIALS.chmod(0o640)
    run(*as_unit(user, command("ExecStartPre", f"--listen 127.0.0.1:3478 --credentials {CREDENTIALS}")))


def main(package):
    run("dpkg", "--install", package)
    user = unit_lines("User")[0]
    assert pwd.getpwnam(user).pw_uid != 0
    said = run("systemd-analyze", "verify", "--man=no", str(UNIT))
    assert "relayd" not in said, said
    assert run("systemctl", "is-enabled", "relayd").strip() == "enabled"
    assert "relayd 0." in run("/usr/sbin/relayd", "--version")
    assert "Mudsluice" in run("man", "--pager=cat", "relayd")
    assert "49152-49279" in pathlib.Path("/usr/lib/sysctl.d/50-mudsluice.conf").read_text()
    credentials(user)
    denied(user)
    service(user)
    run("dpkg", "--purge", "mudsluice")
    assert not UNIT.exists() and not os.path.exists("/usr/lib/mudsluice") and not os.path.exists("/etc/mudsluice")
    print("installed, started, carried, ended, purged")


if __name__ == "__main__":
    main(*sys.argv[1:])
