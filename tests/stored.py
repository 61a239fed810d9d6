"""The data and the expected output of test programs, as files of crates/: compared with what was made, or written anew (--write)."""

import pathlib
import sys

ROOT = pathlib.Path(__file__).resolve().parent.parent


def there(crates):
    """The files that the crates have: everything under data/, and stdout. By name, from crates/ on."""
    found = [f for crate in crates for f in [*(ROOT / "crates" / crate).glob("data/**/*"), ROOT / "crates" / crate / "stdout"]]
    return {f.relative_to(ROOT / "crates").as_posix(): f.read_bytes() for f in found if f.is_file()}


def write(crates, made):
    for name in set(there(crates)) - set(made):
        (ROOT / "crates" / name).unlink()
    for name, content in made.items():
        (ROOT / "crates" / name).parent.mkdir(parents=True, exist_ok=True)
        (ROOT / "crates" / name).write_bytes(content)


def compare(crates, made, agreed):
    """The status of a program: 0, and a line that says what agreed, or 1, and the names of the files that differ."""
    if "--write" in sys.argv[1:]:
        write(crates, made)
    found = there(crates)
    wrong = sorted(name for name in set(found) | set(made) if found.get(name) != made.get(name))
    for name in wrong:
        print("differs:", name)
    if not wrong:
        print(agreed)
    return 1 if wrong else 0
