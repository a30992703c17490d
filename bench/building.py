"""Builds a small program over some of the repository's crates, in another folder."""
import pathlib
import shutil
import subprocess

TOP = pathlib.Path(__file__).resolve().parent.parent


def lines():
    """Each crate of the repository with its dependencies."""
    text = (TOP / "crates.txt").read_text().splitlines()
    named = (line.split(":") for line in text if line and not line.startswith("#"))
    return {name.split()[0]: deps.split() for name, deps in named}


def below(crates, stands_on):
    """These crates and all of the repository that they depend on."""
    wanted, left = set(), list(crates)
    while left:
        crate = left.pop()
        if crate in stands_on and crate not in wanted:
            wanted.add(crate)
            left.extend(stands_on[crate])
    return wanted


def laid_out(folder, name, program, crates, proofs=None, modules=None):
    """The folder of a crate of this name, with these texts in its proofs/ and these modules, beside copies of the crates below it."""
    stands_on = lines()
    wanted = below(crates, stands_on)
    shutil.copy(TOP / "HANDLES", folder)
    for crate in wanted:
        shutil.copytree(TOP / "crates" / crate, folder / "crates" / crate)
    work = folder / "crates" / name
    (work / "src").mkdir(parents=True)
    (work / "src" / "main.rt").write_text(program)
    for module, text in (modules or {}).items():
        (work / "src" / f"{module}.rt").write_text(text)
    for file, text in (proofs or {}).items():
        (work / "proofs" / file).parent.mkdir(parents=True, exist_ok=True)
        (work / "proofs" / file).write_text(text)
    listed = [f"{crate}: {' '.join(stands_on[crate])}\n" for crate in stands_on if crate in wanted]
    (folder / "crates.txt").write_text("".join(listed) + f"{name}: {' '.join(crates)}\n")
    return work


def built(folder, name, program, crates, words, proofs=None, modules=None):
    """The program of this name, with these texts in its proofs/ and these modules, built and run once with these words. It takes some minutes where the
    crates weren't proved before."""
    work = laid_out(folder, name, program, crates, proofs, modules)
    subprocess.run(["rt", "run", "--", *words], cwd=work, check=True, stdout=subprocess.DEVNULL)
    return work / "out" / name


def tried(folder, name, program, crates, words, proofs=None, modules=None):
    """The program of this name as `rt try` builds it: with its checks at run time, and with no proof. While it is built it runs once with these words."""
    from draft import linked, translated

    work = laid_out(folder, name, program, crates, proofs, modules)
    module = folder / f"{name}.module"
    translated(work, words, module)
    linked(module, folder / name)
    return folder / name
