"""What the scripts of .ci know of the crates and of the Rattle kit."""
import pathlib
import shutil
import subprocess

root = pathlib.Path(__file__).resolve().parent.parent


def crates():
    """The crates of crates.txt: name -> (is it a static library, what its line names)."""
    found = {}
    for line in (root / "crates.txt").read_text().splitlines():
        head, colon, names = line.split("#")[0].partition(":")
        if colon:
            found[head.split()[0]] = ("staticlib" in head.split()[1:], names.split())
    return found


def below(name, every):
    """The repository's crates below a crate, each after those that it uses, as rt builds them."""
    found = []
    for one in every[name][1]:
        if one in every:
            found += [it for it in [*below(one, every), one] if it not in found]
    return found


def library(name):
    """Where rt has the library of a crate."""
    return root / "crates" / name / "out" / "rlib" / ("%s.rlib" % name)


def kit():
    """The kit's folder."""
    return pathlib.Path(subprocess.run(["rt", "doc"], capture_output=True, text=True, check=True).stdout.strip()).parent


def rattle(command, name, every, home, *more):
    """The words by which rt has a crate checked or built, over the libraries that stand below it."""
    static, names = every[name]
    main = root / "crates" / name / "src" / "main.rt"
    words = [home / "bin" / "rattle", command, "--crate-name", name, "src/main.rt" if main.exists() else "src/lib.rt"]
    for one in ["std", *(it for it in names if it not in every)]:
        words += ["--extern", "%s=%s" % (one, home / "rlibs" / ("%s.rlib" % one))]
    words += ["-L", "dependency=%s" % (home / "rlibs")]
    for one in names:
        if one in every:
            words += ["--extern", "%s=%s" % (one, library(one))]
    for one in below(name, every):
        words += ["-L", "dependency=%s" % library(one).parent]
    words += ["--antt-project", home / "rattle" / "logic" / "antt-project.json", "--logic-built", home / "logic_built", "--jobs", "1", "--links", "%s=" % name]
    if static:
        words += ["--crate-type", "staticlib"]
    return [*words, *more]


def to_target():
    """Puts the library for C and the program, as they were built in their crates' folders, where callers and scripts look for them."""
    for made, copy in (("exports/out/libexports.a", "staticlib/libexports.a"), ("hrafnolt/out/hrafnolt", "bin/hrafnolt")):
        to = root / "target" / copy
        to.parent.mkdir(parents=True, exist_ok=True)
        # a new file, since the old program may be running
        to.unlink(missing_ok=True)
        shutil.copy2(root / "crates" / made, to)
