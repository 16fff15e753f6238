"""Holds the viewer's WebAssembly modules against the library for C, their JavaScript against wrong use, and both against a fresh build."""
import os
import shutil
import subprocess
import sys
import tempfile

HERE = os.path.dirname(os.path.abspath(__file__))
TESTS = os.path.dirname(HERE)
TOP = os.path.dirname(TESTS)
VIEWER = os.path.join(TOP, "examples", "viewer")
MODULES = ("vtex.wasm", "vtex32.wasm")
sys.path.insert(0, TESTS)
import artefacts  # noqa: E402

RUNS, PASSES = 300, 30
FLAG = "--experimental-wasm-memory64"


def node_words():
    """How node is called, with 64-bit memories where it has them; and whether it has them."""
    has = "WebAssembly.validate(new Uint8Array([0, 97, 115, 109, 1, 0, 0, 0, 5, 3, 1, 4, 1])) || process.exit(1)"
    for words in (["node"], ["node", FLAG]):
        ran = subprocess.run([*words, "-e", has], stdout=subprocess.DEVNULL, stderr=subprocess.DEVNULL)
        if ran.returncode == 0:
            return words, True
    return ["node"], False


def check_node(say, leave_out):
    """`say` takes whether something holds, and what; `leave_out` what is not tried and why. Needs node; gcc and the library for C for the second part."""
    node, has_64 = node_words()
    ran = subprocess.run([*node, os.path.join(TESTS, "vtex_module.mjs")], stdout=subprocess.PIPE, stderr=subprocess.STDOUT, text=True)
    lines = ran.stdout.splitlines()
    for line in lines[:-1]:
        print(line)
    say(ran.returncode == 0, "vtex.js refuses wrong use, and its geometry is right: %s" % (lines or ["nothing printed"])[-1])
    if not has_64:
        leave_out("vtex.wasm, since this node has no 64-bit memories")
    if shutil.which("gcc") is None or artefacts.library() is None:
        return leave_out("the modules beside the library for C, since %s" % ("gcc is not installed" if artefacts.library() else "there is no library in dist/ or crates/vtex_c/out"))
    with tempfile.TemporaryDirectory(prefix="vtex-trial-") as room:
        program = os.path.join(room, "trial")
        words = ["gcc", "-O2", "-I" + os.path.join(TOP, "include"), os.path.join(HERE, "trial.c"), *artefacts.library_words(room), "-pthread", "-o", program]
        subprocess.run(words, check=True)
        native = subprocess.run([program, str(RUNS), str(PASSES)], stdout=subprocess.PIPE, stderr=subprocess.PIPE, text=True, check=True)
        print("library for C: " + native.stderr.strip())
        for name in MODULES if has_64 else MODULES[1:]:
            words = [*node, os.path.join(HERE, "trial.mjs"), os.path.join(VIEWER, name), str(RUNS), str(PASSES)]
            ran = subprocess.run(words, stdout=subprocess.PIPE, stderr=subprocess.PIPE, text=True)
            print("%s: %s" % (name, ran.stderr.strip()))
            same = ran.stdout == native.stdout + "held 0\n"
            say(same, "%d runs of %d passes are those of the library for C, and give all memory back: %s" % (RUNS, PASSES, name))


def check_build(say, leave_out):
    """Whether the modules are those of a fresh build. Needs rt, and wasm-opt for the second."""
    ran = subprocess.run([sys.executable, os.path.join(VIEWER, "build.py"), "--check"], stdout=subprocess.PIPE, stderr=subprocess.STDOUT, text=True)
    lines = ran.stdout.strip().splitlines() or ["build.py printed nothing"]
    if ran.returncode == 2:
        return leave_out(lines[-1])
    return say(ran.returncode == 0, lines[-1])
