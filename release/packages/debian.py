"""A bare Debian in a folder, which debootstrap makes from the network. It needs root."""

import os
import shutil
import subprocess
import urllib.request

from bindings.shared import run

SUITE = "trixie"
# The variable that names Debian's mirror. Without it the machine's own apt says which mirror.
VARIABLE = "DEBIAN_MIRROR"
SILENT = {"stdout": subprocess.DEVNULL, "stderr": subprocess.DEVNULL}


def mirror():
    """The address of Debian's packages, or None."""
    if os.environ.get(VARIABLE):
        return os.environ[VARIABLE]
    if not shutil.which("apt-get"):
        return None
    command = [
        "apt-get", "indextargets", "--format", "$(REPO_URI)", "Created-By: Packages", "Origin: Debian", "Label: Debian",
    ]
    found = subprocess.run(command, capture_output=True, text=True).stdout.split()
    return found[0] if found else None


def why_not():
    """Why no bare system can be made here, or None."""
    if os.geteuid() or not shutil.which("debootstrap") or not shutil.which("chroot"):
        return "there is no debootstrap or no root"
    address = mirror()
    if not address:
        return f"apt knows no mirror of Debian, and {VARIABLE} names none"
    try:
        urllib.request.urlopen(f"{address.rstrip('/')}/dists/{SUITE}/Release", timeout=20).close()
    except OSError as error:
        return f"Debian's mirror is not reached ({error})"
    return None


def make(root, packages):
    """Makes a bare system with these packages from the network, and answers whether that was there to the end."""
    settings = root / "etc/dpkg/dpkg.cfg.d"
    settings.mkdir(parents=True)
    # it need not survive a crash, so dpkg does not wait for the disk
    (settings / "unsafe-io").write_text("force-unsafe-io\n")
    # every user of the bare system passes through its root, which a new temporary folder keeps for its owner
    root.chmod(0o755)
    install = ["apt-get", "install", "--quiet", "--yes", "--no-install-recommends", *packages]
    commands = [
        ["debootstrap", "--variant=minbase", SUITE, root, mirror()],
        ["chroot", root, "env", "DEBIAN_FRONTEND=noninteractive", *install],
    ]
    return all(subprocess.run(command, **SILENT).returncode == 0 for command in commands)


def unpack(root, architecture, packages):
    """Puts the files of a bare system for another processor, with these packages, into a folder, and answers whether
    the network was there to the end. Nothing of it is run."""
    root.mkdir()
    words = ["--download-only", "--variant=minbase", f"--arch={architecture}", f"--include={','.join(packages)}"]
    if subprocess.run(["debootstrap", *words, SUITE, root, mirror()], **SILENT).returncode:
        return False
    for file in sorted((root / "var/cache/apt/archives").glob("*.deb")):
        run("dpkg-deb", "-x", file, root)
    return True
