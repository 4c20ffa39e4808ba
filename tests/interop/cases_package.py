"""The Debian package, and what the run itself leaves on a machine."""
import os
import subprocess

from lab import CALLS, HERE, ROOT


def case_package(lab):
    "the Debian package is built, installed in a copy of this machine, started as its unit does, carries bytes, and is purged"
    environment = {**os.environ, "CALLS": str(CALLS), "CARGO_TARGET_DIR": str(ROOT / "host/relayd/target/package")}
    built = subprocess.run([ROOT / "packaging/build", lab.folder / "package"], env=environment, capture_output=True, text=True, timeout=600, check=False)
    assert built.returncode == 0, built.stderr
    package = built.stdout.strip()
    done = lab.run("relay", HERE / "in_a_copy", "/usr/bin/python3", HERE / "package_check.py", package)
    assert done.returncode == 0 and "purged" in done.stdout, done.stdout + done.stderr
    return os.path.basename(package)


def case_no_coturn_service(lab):
    "tests/interop/packages leaves no coturn.service that would start by itself"
    done = lab.run("relay", "systemctl", "is-enabled", "coturn.service")
    assert done.stdout.strip() != "enabled", "coturn.service is enabled"


CASES = [case_package, case_no_coturn_service]
