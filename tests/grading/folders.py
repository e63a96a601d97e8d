"""Nothing is written into a folder that was handed in, marks don't depend on the order, and equal work has equal marks."""
import os
import shutil
import stat

from .calling import TASKS, example

TASK = TASKS / "3-lost-update.toml"


def seen(folder):
    """All that lies in a folder, with sizes, times and rights."""
    found = {}
    for path in [folder, *sorted(folder.rglob("*"))]:
        it = os.lstat(path)
        found[str(path)] = (stat.filemode(it.st_mode), it.st_size, it.st_mtime_ns, it.st_ctime_ns, it.st_nlink)
    return found


def look(check, grader):
    right, wrong = example("course/3-lost-update/add-locked.asm"), example("course/3-lost-update/add.asm")
    for name, text in ("anna", wrong), ("ben", right), ("cleo", "ADD R0,R0\n"), ("dora", wrong), ("emil", right):
        os.chmod(grader.folder(name, add__asm=text), 0o555)
    class_ = grader.place / "class"
    folders = sorted(class_.iterdir())
    before = seen(class_)
    found = grader.marks(TASK, folders, "--results", grader.place / "results", "-j", "3")
    check(seen(class_) == before, "a folder that was handed in has changed")
    check(len(found) == 5 and found[str(folders[0])] == found[str(folders[3])], f"equal work, other marks: {found}")
    for order in folders[::-1], folders[2:] + folders[:2]:
        again = grader.marks(TASK, order, "-j", "1")
        check(again == found and list(again) == list(map(str, order)), f"another order, other marks: {again}")
    alone = {name: verdicts for it in folders for name, verdicts in grader.marks(TASK, [it]).items()}
    check(alone == found, f"alone, other marks: {alone}")
    check(not list(grader.rooms.iterdir()), f"left behind: {list(grader.rooms.iterdir())}")
    look_at_targets(check, grader, folders)
    for it in folders:
        os.chmod(it, 0o755)


def look_at_targets(check, grader, folders):
    """A target that lies in a folder that was handed in is refused, also through a link."""
    (grader.place / "way").symlink_to(folders[0])
    for option in "--results", "--junit", "--csv":
        for target in folders[0] / "x", folders[0], grader.place / "way/x":
            _, complained, status = grader.call(option, target, TASK, *folders)
            refused = status == 2 and "lies in a folder that was handed in" in complained
            check(refused, f"{option} {target}: {status}: {complained}")
    pages = sorted((grader.place / "results").glob("*/*.html"))
    pages = [it for it in pages if it.parent.name != "records"]
    wanted = [f"{name}/{run}.{ending}" for name in ("anna", "dora") for run in (1, 2) for ending in ("ends.html", "html")]
    check([f"{it.parent.name[:4]}/{it.name}" for it in pages] == wanted, f"pages: {pages}")
    check(all(b"</html>" in it.read_bytes()[-200:] for it in pages), "a page has no end")
    shutil.rmtree(grader.place / "results")
