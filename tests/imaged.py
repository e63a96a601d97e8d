"""Tries the image of a release by podman, without a network or a registry."""
import os
import shutil
import subprocess
import tarfile
import time
from pathlib import Path

from checking import ROOT

BASES = ROOT / ".built/bases"
SHELL = "./bin/busybox"
SECONDS_FOR_BASE = 200
SOURCES = ["examples/two-semaphores-1.asm", "examples/two-semaphores-2.asm"]
# Where root has no right to the machine's own control groups, or these are of both versions, a container's runtime looks at others.
OWN_GROUPS = ["unshare", "--mount", "sh", "-ec", 'mount -t cgroup2 groups /sys/fs/cgroup; exec "$@"', "own-groups"]
EMULATOR = "/usr/bin/qemu-aarch64-static"


def printed(*words):
    done = subprocess.run([str(it) for it in words], stdin=subprocess.DEVNULL, capture_output=True, text=True, check=False)
    return done.stdout + done.stderr, done.returncode


def base_or_reason():
    """The base of an image, which ./release takes, too; or why there is none."""
    for it in "buildah", "mmdebstrap":
        if not shutil.which(it):
            return None, f"there is no {it}"
    found, status = printed("timeout", SECONDS_FOR_BASE, ROOT / "packaging/base", "amd64", BASES)
    return (None, found.strip() or "a base takes too long") if status else (Path(found.strip()), "")


class Podman:
    """Podman, with a store of its own in a folder; `way` has the words before its own."""

    def __init__(self, folder, way):
        self.words = [*way, "podman", "--root", f"{folder}/stored", "--runroot", f"{folder}/run", "--storage-driver", "vfs"]

    def call(self, *words):
        return printed(*self.words, *words)

    def run(self, image, words, *options):
        """What a command prints in a container of the image that goes again, and its status."""
        alone = ["--rm", "--network", "none", "--cgroups", "disabled", "--ulimit", "nofile=1024:1024", "--ulimit", "nproc=1000:1000"]
        return self.call("run", *alone, *options, image, *words)


def podman_or_reason(folder, base):
    """A podman that can run a container here, of an image that has a shell alone; or why there is none."""
    if not shutil.which("podman"):
        return None, "there is no podman"
    alone = Path(folder) / "alone.tar"
    with tarfile.open(base) as files, tarfile.open(alone, "w") as made:
        member = files.getmember(SHELL)
        made.addfile(member, files.extractfile(member))
    reasons = []
    for way in [], OWN_GROUPS:
        podman = Podman(folder, way)
        found, status = podman.call("import", "--quiet", alone, "alone:1")
        if status == 0:
            found, status = podman.run("localhost/alone:1", ["/bin/busybox", "echo", "it runs"])
            if (found, status) == ("it runs\n", 0):
                return podman, ""
        reasons.append(found.strip())
    return None, f"podman can't run a container here: {'; '.join(filter(None, reasons))}"


def try_no_base(check, folder):
    """An archive that isn't there is named, and no part of a base is left."""
    made, where = Path(folder) / "bases", f"file://{folder}/nowhere"
    found, status = printed("env", f"MIRROR={where}", ROOT / "packaging/base", "amd64", made)
    check(status == 1 and f"base: no base for amd64 can be made of {where}: " in found, f"packaging/base: status {status}: {found}")
    check(not list(made.iterdir()), "packaging/base leaves a file where it fails")


def try_again(check, archive, base, package, folder):
    """The image that is made once more has the same bytes."""
    again, time_of_commit = Path(folder) / archive.name, printed("git", "-C", archive.parent, "show", "-s", "--format=%ct")[0].strip()
    words = [ROOT / "packaging/image", base, package, "lc3lab:" + archive.name.split("-")[1], again]
    made, status = printed("env", f"SOURCE_DATE_EPOCH={time_of_commit}", *words)
    check(status == 0 and again.read_bytes() == archive.read_bytes(), f"packaging/image: the second one differs: {made}")
    again.unlink(missing_ok=True)


def try_image(check, archive, base, folder):
    """A container of the image explores the example, checks sources of a mounted folder, and writes a page into it."""
    podman, reason = podman_or_reason(folder, base)
    if reason:
        print(f"skipped: {reason}")
        return
    began = time.monotonic()
    found, status = podman.call("load", "--quiet", "--input", archive)
    check(status == 0 and "localhost/lc3lab:" in found, f"podman load: status {status}: {found}")
    image = found.split()[-1]
    found, status = podman.run(image, ["lc3lab", "explore", *SOURCES])
    check(status == 0 and "complete 29 worlds" in found, f"explore in the image: status {status}: {found}")
    print(f"image: {archive.stat().st_size / 1e6:.1f} MB, {time.monotonic() - began:.1f} seconds from podman load to the first end")
    try_mounted(check, podman, image, Path(folder) / "mounted")
    words = ["sh", "-c", "nano --version && . /etc/profile && cd examples/course && ls | wc -l"]
    found, status = podman.run(image, words)
    check(status == 0 and "lc3lab run examples/hi.asm" in found, f"the editor in the image: status {status}: {found}")


def try_arm64(check, archive, base, folder):
    """In a container of the image for arm64 an emulator from here plays its program, which explores the example."""
    podman, reason = podman_or_reason(folder, base)
    if reason:
        print(f"skipped: {reason}")
        return
    found, status = podman.call("load", "--quiet", "--input", archive)
    check(status == 0 and "localhost/lc3lab:" in found, f"podman load: status {status}: {found}")
    options = ["--arch", "arm64", "--volume", f"{EMULATOR}:/emulator:ro"]
    words = ["/emulator", "/usr/lib/lc3lab/lib/lc3lab", "explore", *SOURCES]
    found, status = podman.run(found.split()[-1], words, *options)
    check(status == 0 and "complete 29 worlds" in found, f"explore in the image for arm64: status {status}: {found}")
    print(f"image for arm64: {archive.stat().st_size / 1e6:.1f} MB")


def try_mounted(check, podman, image, mounted):
    """Sources of a mounted folder are checked, and a page is written there, for who started the container."""
    mounted.mkdir()
    (mounted / "good.asm").write_text("  .ORIG x3000\n  HALT\n  .END\n")
    (mounted / "bad.asm").write_text("  .ORIG x3000\n  ADD R0,R0\n  .END\n")
    in_folder = ["--volume", f"{mounted}:/home/student/mine", "--workdir", "/home/student/mine"]
    found, status = podman.run(image, ["lc3lab", "check", "good.asm"], *in_folder)
    check((found, status) == ("", 0), f"check of a good source in the image: status {status}: {found}")
    found, status = podman.run(image, ["lc3lab", "check", "bad.asm"], *in_folder)
    check(status == 1 and "bad.asm:2" in found, f"check of a bad source in the image: status {status}: {found}")
    found, status = podman.run(image, ["lc3lab", "run", "--page", "page.html", "good.asm"], *in_folder)
    page = mounted / "page.html"
    check(status == 0 and page.exists(), f"run --page in the image: status {status}: {found}")
    check(page.exists() and page.stat().st_uid == os.getuid(), "the page of an image isn't of who started it")
