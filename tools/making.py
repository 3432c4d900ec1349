"""What the generators of commands and stored answers share: sections made one after the other, each told; the files written; the arguments taken.
"""
import pathlib

ROOT = pathlib.Path(__file__).resolve().parent.parent


def make_sections(s, sections, counted, what):
    """Each section adds commands and answers to the script `s`; `counted` gives how many of `what` it has by now."""
    for section in sections:
        before = len(s.commands), sum(map(len, s.answers)) + len(s.answers), counted(s)
        section(s)
        after = len(s.commands), sum(map(len, s.answers)) + len(s.answers), counted(s)
        print("%s: %d bytes, %d bytes of answers, %d %s" % (section.__name__, *(a - b for a, b in zip(after, before)), what))


def write_script(s, folder, most):
    """The commands and their answers, for a program that takes so many bytes at most."""
    assert len(s.commands) <= most, len(s.commands)
    (folder / "stdin").write_bytes(s.commands)
    (folder / "stdout").write_text("\n".join(s.answers) + "\n")


def make(args, seed, crate, make_commands, make_samples):
    """With no arguments the crate's files and the samples; else those of another seed, in another folder."""
    if args:
        make_commands(int(args[0]), pathlib.Path(args[1]))
        return
    make_commands(seed, ROOT / "crates" / crate)
    make_samples()
