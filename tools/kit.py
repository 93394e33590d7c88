"""How `rt` calls the kit's `rattle`: for what `rt` itself has no command for."""
import pathlib
import subprocess

TOP = pathlib.Path(__file__).resolve().parent.parent


def home():
    """The kit's folder."""
    page = subprocess.run(["rt", "doc"], stdout=subprocess.PIPE, check=True, encoding="utf-8").stdout
    return pathlib.Path(page.strip()).parent


def listed(top=TOP):
    """The libraries that each crate of crates.txt uses, the repository's and the kit's, by the crate's name."""
    found = {}
    for line in (top / "crates.txt").read_text().splitlines():
        line = line.partition("#")[0]
        if line.strip():
            name, _, uses = line.partition(":")
            found[name.split()[0]] = uses.split()
    return found


def below(name, crates):
    """The repository's libraries below a crate, each after those that it uses."""
    found = []
    for dep in crates[name]:
        if dep in crates:
            found += [it for it in [*below(dep, crates), dep] if it not in found]
    return found


def words(name, crates, rlib, kit, root="src/lib.rt"):
    """What `rattle check` and `rattle build` are told of a crate, in its folder. rlib gives a library of the repository as it was built."""
    found = ["--crate-name", name, root, "--extern", f"std={kit}/rlibs/std.rlib", "-L", f"dependency={kit}/rlibs"]
    for dep in crates[name]:
        found += ["--extern", f"{dep}={rlib(dep) if dep in crates else f'{kit}/rlibs/{dep}.rlib'}"]
    for dep in below(name, crates):
        found += ["-L", f"dependency={rlib(dep).parent}"]
    return [*found, "--antt-project", f"{kit}/rattle/logic/antt-project.json", "--logic-built", f"{kit}/logic_built", "--links", f"{name}="]
