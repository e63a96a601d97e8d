"""A bare Debian system, of the files of packages that are installed here: it needs no network, and some seconds."""
import functools
import os
import re
import shutil
import stat
import subprocess
from pathlib import Path

PATH = "/usr/local/bin:/usr/sbin:/usr/bin:/sbin:/bin"


def queried(*words):
    return subprocess.run(["dpkg-query", *words], stdout=subprocess.PIPE, stderr=subprocess.DEVNULL, check=True).stdout.decode()


@functools.cache
def installed():
    """What each installed package, or what one provides, needs; and the packages that each system has."""
    needs, always = {}, set()
    for line in queried("-W", "-f", "${Package}\t${Essential}\t${Pre-Depends}, ${Depends}\t${Provides}\t${Status}\n").splitlines():
        name, essential, words, provided, status = line.split("\t")
        if status.endswith(" installed"):
            needs[name] = names_in(words)
            for it in names_in(provided):
                needs.setdefault(it, []).append(name)
            always |= {name} if essential == "yes" else set()
    return needs, always


def names_in(words):
    """The packages that a line of Depends or Provides names, each alternative too."""
    return [it.strip().split()[0].partition(":")[0] for it in re.split(r"[,|]", words) if it.strip()]


def with_needs(packages):
    """Packages with all that they need, as far as it is here."""
    needs, _ = installed()
    found, left = set(), list(packages)
    while left:
        it = left.pop()
        if it in needs and it not in found:
            found.add(it)
            left += needs[it]
    return sorted(found & set(queried("-W", "-f", "${Package}\n").split()))


def lacking():
    """Why no bare system can be made here, or nothing."""
    missing = [it for it in ("dpkg-query", "unshare", "chroot") if not shutil.which(it, path=PATH)]
    if missing:
        return f"there is no {missing[0]}"
    return "only root can make a bare system" if os.geteuid() else ""


class Bare:
    """A folder with the files of Debian's essential packages and of some more, which is the root of what is run in it."""

    def __init__(self, root, *packages):
        self.root = Path(root)
        for name in "bin", "sbin", "lib", "lib64":
            if Path("/", name).is_symlink():
                (self.root / "usr" / name).mkdir(parents=True, exist_ok=True)
                (self.root / name).symlink_to(f"usr/{name}")
        names = with_needs([*installed()[1], *packages])
        for path in queried("-L", *names).splitlines():
            self.take(path)
        for name in "tmp", "proc", "root", "dev", "var/lib/dpkg/info", "var/lib/dpkg/updates", "var/log", "var/cache/apt/archives/partial":
            (self.root / name).mkdir(parents=True, exist_ok=True)
        (self.root / "var/lib/dpkg/status").write_text(queried("-s", *names))
        for name in "passwd", "group":
            shutil.copy(f"/usr/share/base-passwd/{name}.master", self.root / "etc" / name)
        os.mknod(self.root / "dev/null", 0o666 | stat.S_IFCHR, os.makedev(1, 3))
        os.chmod(self.root / "dev/null", 0o666)
        os.chmod(self.root / "tmp", 0o1777)

    def take(self, path):
        """A file, link or folder of this system, but for pages of manuals and languages."""
        target = self.root / path.lstrip("/")
        if re.match("/usr/share/(man|doc|locale|info)/", path) or not os.path.lexists(path) or os.path.lexists(target):
            return
        if os.path.isdir(path) and not os.path.islink(path):
            target.mkdir(parents=True, exist_ok=True)
        elif os.path.islink(path) or os.path.isfile(path):
            target.parent.mkdir(parents=True, exist_ok=True)
            shutil.copy2(path, target, follow_symlinks=False)

    def run(self, command, user="0:0", **environment):
        """What a command prints in the system, errors too, and its status. It has no network but its own, and all processes that
        it starts end with it."""
        alone = ["unshare", "--mount", "--pid", "--net", "--fork", "--kill-child", f"--mount-proc={self.root}/proc"]
        up = ["sh", "-c", 'ip link set lo up 2>/dev/null; exec "$@"', "sh"]
        given = [f"{name}={value}" for name, value in {"PATH": PATH, "LC_ALL": "C", "HOME": "/tmp", **environment}.items()]
        done = subprocess.run([*alone, *up, "env", "-i", *given, "chroot", f"--userspec={user}", self.root, "sh", "-c", command],
                              stdin=subprocess.DEVNULL, stdout=subprocess.PIPE, stderr=subprocess.STDOUT, check=False)
        return done.stdout.decode("utf-8", "replace"), done.returncode
