"""What compare.py times: the programs of crates, their peers, and programs in C with the library for C; and whether what some of them need is there."""
import functools, os, pathlib, shutil, subprocess, sys

BENCH = pathlib.Path(__file__).resolve().parent
CRATES = BENCH.parent / "crates"
EXAMPLES = BENCH.parent / "examples"
TIRPC = ("-I/usr/include/tirpc", "-ltirpc")


@functools.cache
def built_program(crate):
    """The program of a crate, proved and built."""
    if "XNS_PROGRAMS" in os.environ:
        program = pathlib.Path(os.environ["XNS_PROGRAMS"]).resolve() / crate
        print(f"a try: the program is {program}, which was not built and proved here")
        return program
    program = CRATES / crate / "out" / crate
    program.unlink(missing_ok=True)
    built = subprocess.run(["rt", "run"], cwd=CRATES / crate, stdin=subprocess.DEVNULL, stdout=subprocess.DEVNULL, stderr=subprocess.PIPE, check=False)
    if not program.exists():
        sys.exit(built.stderr.decode() + f"no program at {program}")
    return program


@functools.cache
def built_peer(name, folder, *flags):
    peer = pathlib.Path(folder) / "-".join([name, *flags[1:]])
    subprocess.run(["rustc", "-O", "--edition", "2021", *flags, "-o", peer, BENCH / f"{name}.rs"], check=True)
    return peer


@functools.cache
def built_library():
    """The library for C, and the kit's three functions that it stands on."""
    archive = CRATES / "xns_c" / "out" / "libxns_c.a"
    if "XNS_ARCHIVE" in os.environ:
        archive = pathlib.Path(os.environ["XNS_ARCHIVE"]).resolve()
        print(f"a try: the library is {archive}, which was not built and proved here")
    else:
        archive.unlink(missing_ok=True)
        built = subprocess.run(["rt", "lib"], cwd=CRATES / "xns_c", stdout=subprocess.PIPE, stderr=subprocess.STDOUT, check=False)
        if built.returncode != 0 or not archive.exists():
            sys.exit(built.stdout.decode() + f"no library at {archive}")
    first = pathlib.Path(subprocess.run(["rt", "doc"], stdout=subprocess.PIPE, check=True, text=True).stdout.strip())
    return archive, first.parent / "c" / "liblibc_c.a"


@functools.cache
def built_c(name, folder, library, *flags, source=BENCH):
    """The program of a C file, with the library for C behind it or not."""
    program = pathlib.Path(folder) / name
    words = ["gcc", "-O2", "-std=c99", f"-I{BENCH.parent / 'include'}", f"-I{EXAMPLES / 'c'}", source / f"{name}.c"]
    subprocess.run([*words, *(built_library() if library else ()), *flags, "-o", program], check=True)
    return program


def built_shared(folder):
    """The library for C as Python loads it."""
    shared = pathlib.Path(folder) / "libxns.so"
    subprocess.run(["gcc", "-shared", "-Wl,--whole-archive", *built_library(), "-Wl,--no-whole-archive", "-o", shared], check=True)
    return shared


def has(what, found):
    """Whether something is there; a line says so where it is not."""
    if not found:
        print(f"there is no {what}: what needs it is left out")
    return found


def has_gcc():
    return has("gcc", shutil.which("gcc") is not None)


@functools.cache
def has_valgrind():
    return has("valgrind", shutil.which("valgrind") is not None)


@functools.cache
def has_tirpc():
    words = ["gcc", "-x", "c", "-", *TIRPC, "-o", os.devnull]
    tried = subprocess.run(words, input=b"#include <rpc/rpc.h>\nint main(void) { return 0; }\n", stderr=subprocess.DEVNULL, check=False)
    return has("libtirpc", tried.returncode == 0)
