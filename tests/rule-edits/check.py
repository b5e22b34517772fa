"""Edits of the rule book under which demand 3 is false: the proof of demand 3 (crate pair_laws) must refuse each.

A must-fail edit of a crate is checked against that crate alone; the rules stand in crate book and demand 3 above it. So this makes a scratch copy of
the crates below and including pair_laws, leaves book's own worked examples out (they would refuse the edit first), and checks pair_laws there: as it
stands it must be proved, and with each edit it must not, by a fact that fails in pair_laws and not by a name that is gone."""
import pathlib
import re
import shutil
import subprocess
import sys
import tempfile

ROOT = pathlib.Path(__file__).resolve().parents[2]
CRATES = ["octets", "frame", "book", "pair_laws"]


def check(folder):
    run = subprocess.run(["rt", "check"], cwd=folder / "crates/pair_laws", capture_output=True, text=True)
    return run.returncode, run.stdout + run.stderr


def without_examples(folder):
    proofs = folder / "crates/book/proofs"
    (proofs / "Slips.antt").unlink()
    lib = proofs / "Lib.antt"
    lib.write_text(lib.read_text().replace("pub mod Slips\n", ""))


def fields(path):
    found = dict(re.findall(r"^(file|old|new): (.*)$", path.read_text(), re.M))
    return found["file"], found["old"], found["new"]


def refused(code, said):
    """Whether pair_laws was reached and a statement in it failed."""
    errors = re.findall(r"^\./proofs/\S*: error: (.*)", said, re.M)
    hollow = [e for e in errors if "not in scope" in e or "has no `" in e or "has no field" in e]
    reached = re.search("^crate pair_laws: ", said, re.M) is not None and "nothing was built" not in said
    return code == 1 and reached and bool(errors) and not hollow


def main():
    edits = sorted((ROOT / "tests/rule-edits").glob("*.edit"))
    passed = failed = 0
    with tempfile.TemporaryDirectory() as name:
        folder = pathlib.Path(name)
        for crate in CRATES:
            shutil.copytree(ROOT / "crates" / crate, folder / "crates" / crate, ignore=shutil.ignore_patterns("must-fail", "out"))
        lines = [l for l in (ROOT / "crates.txt").read_text().splitlines() if l.split(":")[0] in CRATES]
        (folder / "crates.txt").write_text("\n".join(lines) + "\n")
        without_examples(folder)
        code, said = check(folder)
        if code == 0:
            passed += 1
            print("demand 3 over the rule book as it stands: proved")
        else:
            failed += 1
            print("demand 3 over the rule book as it stands: NOT proved\n" + said[-2000:])
        for edit in edits:
            path, old, new = fields(edit)
            text = (folder / path).read_text()
            if text.splitlines().count(old) != 1:
                failed += 1
                print(f"{edit.stem}: its line does not stand exactly once")
                continue
            (folder / path).write_text(text.replace(old, new))
            code, said = check(folder)
            (folder / path).write_text(text)
            ok = refused(code, said)
            passed, failed = passed + ok, failed + (not ok)
            first = re.search(r"(proofs/\w+\.antt:\d+:\d+): error: (.{0,90})", said)
            where = f" ({first.group(1)}: {first.group(2)})" if first else ""
            print(f"{edit.stem}: " + ("refused, as it must be" + where if ok else "NOT refused by a fact\n" + said[-2000:]))
    if not edits:
        failed += 1
    print(f"{passed} passed, {failed} failed")
    return 1 if failed else 0


sys.exit(main())
