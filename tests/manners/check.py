"""Holds ./lamp and ./spell to how they behave: how they end, what they say, and what they do where things are odd.

What proves and builds is tried in a copy of the repository with a stand-in for rt, since what the script makes of rt's
words is tried here. With --rebuild one program is built anew by rt itself.
"""

import fcntl
import os
import pty
import shutil
import signal
import socket
import subprocess
import sys
import tempfile
import time

ROOT = os.path.dirname(os.path.dirname(os.path.dirname(os.path.abspath(__file__))))
LAMP = os.path.join(ROOT, "lamp")
SPELL = os.path.join(ROOT, "spell")
NOBODY = 65534

# What stands at the place of rt: it proves nothing, and tells of two crates as rt does. The file `slow` in its folder
# has it wait until the file is gone, and the file `fails` has it fail.
STAND_IN = """#!/bin/sh
here=$(dirname "$0")
[ "$1" = run ] || exec "$(cat "$here/rt.path")" "$@"
name=$(basename "$PWD")
{
    [ ! -e "$here/fails" ] || {
        echo 'src/lib.rt:21:5: error[x]: a fault'
        echo 'rt: the library words did not build, so nothing above it was checked'
        exit 1
    }
    echo 'fn words::x: proved'
    echo 'library laws: modules loaded=20 checked=0'
    echo 'crate words: modules loaded=0 checked=35'
    echo 'logic=proved functions=1'
    touch "$here/begun"
    while [ -e "$here/slow" ]; do sleep 0.02; done
    mkdir -p out
    cp "$here/built" "out/$name"
    echo "crate $name: modules loaded=0 checked=35"
    echo 'logic=proved functions=1'
    echo "rt: running out/$name; to give it other input, run that file yourself"
} >&2
exec "out/$name"
"""

checks = 0


def differs(case, fault):
    print(f"{case}: {fault}")
    sys.exit(1)


def due(case, is_so, fault):
    global checks
    checks += 1
    if not is_so:
        differs(case, fault)


def contents(path):
    with open(os.path.join(ROOT, path), "rb") as file:
        return file.read()


def meanings():
    """The sentence of each refusal number, as the header has them."""
    text = contents("include/callinglamp.h").decode()
    rows = [line.strip() for line in text.split("\n") if line.strip().startswith("case ")]
    return {row.split(":")[0][5:]: row.split('"')[1] for row in rows}


def run(command, given=b"", **how):
    done = subprocess.run(command, input=given, capture_output=True, check=False, timeout=300, **how)
    return done.returncode, done.stdout, done.stderr.decode()


def check_run(case, command, given, status, output, said, **how):
    """`said`: what standard error must have, a part for each of its lines."""
    got, printed, told = run(command, given, **how)
    due(case, got == status, f"ended with {got} and not {status}, and said '{told}'")
    due(case, printed == output, f"printed {printed} and not {output}")
    lines = told.split("\n")[:-1]
    fits = len(lines) == len(said) and all(part in line for part, line in zip(said, lines))
    due(case, fits, f"said '{told}', and not {said}")


# ---- how they end, and what they say of a refusal


def refused(name, numbers):
    return [f"{name}: refused {number}: {meanings()[str(number)]}" for number in numbers]


def check_statuses():
    three = contents("examples/three.list")
    printed = contents("examples/three.out")
    plain = contents("examples/streaming.list")
    check_run("a list with a refused word", [LAMP], three, 0, printed, refused("lamp", [3]))
    check_run("a list", [LAMP], plain, 0, contents("examples/streaming.out"), refused("lamp", [4]))
    cut = contents("examples/cut-short.list")
    check_run("a list that ends early", [LAMP], cut, 1, contents("examples/cut-short.out"), refused("lamp", [7]))
    check_run("no list", [LAMP], b"", 1, b"refused 7 at 0\n", refused("lamp", [7]))
    check_run("bytes after the last word", [LAMP], three + b"x", 1, b"refused 10 at 535\n", refused("lamp", [10]))
    check_run("VL 2", [LAMP], b"\x02" + bytes(6), 1, b"refused 1 at 0\n", refused("lamp", [1]))
    check_run("a long number", [LAMP], b"\x80\x00", 1, b"refused 8 at 0\n", refused("lamp", [8]))
    head = b"\x80\x01\x0c\x03\0\0\0\0" + bytes(512)
    check_run("1,025 words", [LAMP], head + b"\x81\x08", 1, b"refused 9 at 520\n", refused("lamp", [9]))
    check_run("no word", [LAMP], head + b"\0", 0, b"words 0\ntotal 0 0 0\n", [])
    text = b"smlsll za.s[w8, 0:3, vgx2], { z0.b-z1.b }, { z2.b-z3.b }\n"
    check_run("a word", [SPELL], b"C1A20008\n", 0, text, [])
    check_run("no line", [SPELL], b"", 0, b"", [])
    lines = b"C1A20008\n\nFFFFFFFF\nx\n"
    check_run("lines", [SPELL], lines, 1, text + b"refused 11\nrefused 3\nrefused 11\n", refused("spell", [3, 11]))
    due("the header's sentences", sorted(map(int, meanings())) == list(range(13)), f"are of {sorted(meanings())}")


def check_arguments():
    for name in ("lamp", "spell"):
        script = os.path.join(ROOT, name)
        for wrong in (["x"], ["--where", "x"], ["--Help"], ["-"]):
            check_run(f"{name} {wrong}", [script] + wrong, b"", 2, b"", [f"{name}: usage: ./{name} <"])
        for asked in ("--help", "-h"):
            status, printed, told = run([script, asked])
            due(f"{name} {asked}", (status, told) == (0, ""), f"ended with {status}, and said '{told}'")
            parts = [b"./" + name.encode(), b"--where", b"ends with 0", b"1 where", b"2 where", b"3 where"]
            whole = all(part in printed for part in parts)
            due(f"{name} {asked}", whole and b"#!" not in printed and b"exec" not in printed, f"printed {printed}")
    bare = dict(os.environ, PATH=os.path.dirname(shutil.which("bash")) + ":/usr/bin:/bin")
    if shutil.which("rt", path=bare["PATH"]) is None:
        said = ["lamp: rt, the command of the Rattle kit, is not on the path"]
        check_run("no kit", [LAMP], b"", 2, b"", said, env=bare)


# ---- where input and output are not as usual


def check_outputs():
    three = contents("examples/three.list")
    with open("/dev/full", "wb") as full:
        done = subprocess.run([LAMP], input=three, stdout=full, stderr=subprocess.PIPE, check=False, timeout=60)
    told = done.stderr.decode()
    due("a full disk", done.returncode == 3, f"ended with {done.returncode}")
    due("a full disk", told.endswith("lamp: the output could not be written\n"), f"said '{told}'")
    closed = ["bash", "-c", f"exec '{LAMP}' >&-"]
    check_run("no standard output", closed, three, 3, b"", ["lamp: there is no standard output"])
    closed = ["bash", "-c", f"exec '{LAMP}' <&-"]
    check_run("no standard input", closed, b"", 1, b"refused 7 at 0\n", refused("lamp", [7]))
    closed = ["bash", "-c", f"exec '{LAMP}' 2>&-"]
    check_run("no standard error", closed, three, 0, contents("examples/three.out"), [])
    with open("twice", "ab") as file:
        for _ in range(2):
            subprocess.run([LAMP], input=three, stdout=file, stderr=subprocess.DEVNULL, check=True, timeout=60)
    with open("twice", "rb") as file:
        due("what is appended", file.read() == contents("examples/three.out") * 2, "is not both outputs")


def check_reader_gone():
    reading, writing = os.pipe()
    os.close(reading)
    lamp = subprocess.Popen(
        [LAMP], stdin=subprocess.PIPE, stdout=writing, stderr=subprocess.PIPE,
        preexec_fn=lambda: signal.signal(signal.SIGPIPE, signal.SIG_DFL),
    )
    os.close(writing)
    lamp.communicate(contents("examples/three.list"), timeout=60)
    due("a reader that has gone", lamp.returncode == -signal.SIGPIPE, f"ended with {lamp.returncode}")


def does_not_block(number):
    fcntl.fcntl(number, fcntl.F_SETFL, fcntl.fcntl(number, fcntl.F_GETFL) | os.O_NONBLOCK)


def check_input_that_does_not_block():
    three = contents("examples/three.list")
    reading, writing = os.pipe()
    does_not_block(reading)
    lamp = subprocess.Popen([LAMP], stdin=reading, stdout=subprocess.PIPE, stderr=subprocess.DEVNULL)
    os.close(reading)
    for piece in (three[:300], three[300:]):
        time.sleep(0.3)
        os.write(writing, piece)
    os.close(writing)
    printed = lamp.communicate(timeout=60)[0]
    due("an input pipe that does not block", printed == contents("examples/three.out"), f"printed {printed}")
    for blocks in (True, False):
        ours, its = socket.socketpair()
        its.setblocking(blocks)
        lamp = subprocess.Popen([LAMP], stdin=its.fileno(), stdout=subprocess.PIPE, stderr=subprocess.PIPE)
        its.close()
        ours.sendall(three)
        ours.close()
        printed, told = lamp.communicate(timeout=60)
        expected = (0, contents("examples/three.out")) if blocks else (2, b"")
        got = (lamp.returncode, printed)
        due(f"a socket, blocking {blocks}", got == expected, f"ended and printed {got}, and said {told}")


def check_output_that_does_not_block():
    """The reader is late, and there is more than a pipe holds."""
    words = bytes.fromhex("A0808A71") * 1024
    given = b"\x80\x01\x01\0\0\0\0\0" + b"\x01" * 512 + b"\x80\x08" + words
    whole = run([LAMP], given)[1]
    reading, writing = os.pipe()
    does_not_block(writing)
    fcntl.fcntl(writing, fcntl.F_SETPIPE_SZ if hasattr(fcntl, "F_SETPIPE_SZ") else 1031, 4096)
    lamp = subprocess.Popen([LAMP], stdin=subprocess.PIPE, stdout=writing, stderr=subprocess.PIPE)
    os.close(writing)
    lamp.stdin.write(given)
    lamp.stdin.close()
    time.sleep(0.5)
    with os.fdopen(reading, "rb") as output:
        printed = output.read()
    case = "an output pipe that does not block"
    due(case, printed == whole and len(whole) > 4096, f"printed {len(printed)} of {len(whole)} bytes")
    due(case, lamp.wait(60) == 0, f"ended with {lamp.returncode}")
    lamp.stderr.close()


def check_named_pipe():
    os.mkfifo("named")
    reading = os.open("named", os.O_RDONLY | os.O_NONBLOCK)
    writing = os.open("named", os.O_WRONLY)
    lamp = subprocess.Popen([LAMP], stdin=reading, stdout=subprocess.PIPE, stderr=subprocess.PIPE)
    os.close(reading)
    printed, told = lamp.communicate(timeout=60)
    os.close(writing)
    due("a named pipe", (lamp.returncode, printed) == (2, b""), f"ended with {lamp.returncode}, printed {printed}")
    due("a named pipe", told.startswith(b"lamp: standard input does not block"), f"said '{told}'")


def check_terminal(blocks):
    main, terminal = pty.openpty()
    if not blocks:
        does_not_block(terminal)
    spell = subprocess.Popen([SPELL], stdin=terminal, stdout=subprocess.PIPE, stderr=subprocess.PIPE)
    os.close(terminal)
    time.sleep(0 if blocks else 0.3)
    os.write(main, b"0E238041\n")
    # The answer comes before the input ends.
    first = spell.stdout.readline()
    os.write(main, b"\x04")
    rest, told = spell.communicate(timeout=60)
    os.close(main)
    case = f"a terminal, blocking {blocks}"
    due(case, first + rest == b"smlal v1.8h, v2.8b, v3.8b\n", f"printed {first + rest}")
    due(case, told == b"spell: reads LINES from the terminal; Ctrl-D ends it\n", f"said '{told}'")


# ---- where it stands, and what is built


def check_link():
    os.symlink(LAMP, "by-link")
    os.symlink("by-link", "by-two-links")
    three, printed = contents("examples/three.list"), contents("examples/three.out")
    for link in ("./by-link", "./by-two-links"):
        check_run(link, [link], three, 0, printed, refused("lamp", [3]))


def copy_repository(to):
    """What the scripts read, with what is built; their times are kept, so that it counts as built in the copy too."""
    os.mkdir(to)
    for part in ("lamp", "spell", "crates.txt"):
        shutil.copy2(os.path.join(ROOT, part), to)
    for part in ("tools", "include", "crates", "target/bin"):
        shutil.copytree(os.path.join(ROOT, part), os.path.join(to, part), ignore=shutil.ignore_patterns("out"))
    for name in ("lamp", "spell"):
        for end in ("begun", "checked"):
            shutil.copy2(os.path.join(ROOT, f"target/{name}.{end}"), os.path.join(to, "target"))
    return os.path.join(to, "lamp")


def as_nobody():
    """Who may not write the folder: root may write every one."""
    return {"user": NOBODY, "group": NOBODY, "extra_groups": []} if os.getuid() == 0 else {}


def may_write(folder, may):
    for path, folders, _ in os.walk(folder):
        os.chmod(path, 0o755 if may else 0o555)


def check_folder_that_cannot_be_written(lamp):
    folder = os.path.dirname(lamp)
    three, printed = contents("examples/three.list"), contents("examples/three.out")
    may_write(folder, False)
    check_run("built, not to be written", [lamp], three, 0, printed, refused("lamp", [3]), **as_nobody())
    may_write(folder, True)
    os.remove(os.path.join(folder, "target/lamp.checked"))
    may_write(folder, False)
    check_run("not built, not to be written", [lamp], three, 2, b"", ["cannot be written"], **as_nobody())
    may_write(folder, True)


def stand_in(folder):
    os.mkdir(folder)
    with open(os.path.join(folder, "rt"), "w") as file:
        file.write(STAND_IN)
    os.chmod(os.path.join(folder, "rt"), 0o755)
    with open(os.path.join(folder, "rt.path"), "w") as file:
        file.write(shutil.which("rt"))
    shutil.copy2(os.path.join(ROOT, "target/bin/lamp"), os.path.join(folder, "built"))
    return dict(os.environ, PATH=folder + ":" + os.environ["PATH"])


def touch(path):
    with open(path, "a"):
        os.utime(path)


def check_first_use(lamp, folder, way):
    """A line that says what happens and how long it takes, and a line for each crate that is new."""
    target = os.path.join(os.path.dirname(lamp), "target")
    three, printed = contents("examples/three.list"), contents("examples/three.out")
    said = ["lamp: proves and builds", "lamp: words is proved; ", "lamp: lamp is proved; "] + refused("lamp", [3])
    os.remove(os.path.join(target, "bin/lamp"))
    check_run("target/bin/lamp is gone", [lamp], three, 0, printed, said, env=way)
    check_run("the second use", [lamp], three, 0, printed, refused("lamp", [3]), env=way)
    with open(os.path.join(target, "log/lamp.check")) as log:
        due("target/log", "fn words::x: proved" in log.read(), "has not what rt said")
    touch(os.path.join(os.path.dirname(lamp), "crates/laws/specs/Lists.antt"))
    touch(os.path.join(folder, "fails"))
    said = ["lamp: proves and builds", "error[x]: a fault", "rt: the library words did not build"]
    said.append("lamp: 'rt run' in crates/lamp failed")
    check_run("a proof that fails", [lamp], three, 2, b"", said, env=way)
    os.remove(os.path.join(folder, "fails"))


def check_waiting(lamp, folder, way):
    touch(os.path.join(folder, "slow"))
    os.remove(os.path.join(folder, "begun"))
    pipes = {name: subprocess.PIPE for name in ("stdin", "stdout", "stderr")}
    calls = [subprocess.Popen([lamp], env=way, **pipes)]
    while not os.path.exists(os.path.join(folder, "begun")):
        time.sleep(0.02)
    calls.append(subprocess.Popen([lamp], env=way, **pipes))
    told = calls[1].stderr.readline().decode()
    os.remove(os.path.join(folder, "slow"))
    due("a call that waits", "lamp: another" in told and "wait" in told, f"said '{told}'")
    for call in calls:
        printed, _ = call.communicate(contents("examples/three.list"), timeout=60)
        due("a call that waits", printed == contents("examples/three.out"), f"printed {printed}")


def check_built_again(lamp):
    """By rt itself, of the program that it proves fastest. What it stands on rt takes from where that is proved."""
    folder = os.path.dirname(lamp)
    os.remove(os.path.join(folder, "target/bin/spell"))
    status, printed, told = run([os.path.join(folder, "spell")], b"C1A20008\n")
    due("target/bin/spell is gone", (status, printed[:7]) == (0, b"smlsll "), f"ended with {status}, said '{told}'")
    due("target/bin/spell is gone", "spell: spell is proved; 0 left" in told, f"said '{told}'")


def main():
    start = time.monotonic()
    # A program that waits for ever ends the test.
    signal.alarm(300)
    for script in (LAMP, SPELL):
        subprocess.run([script, "--where"], stdout=subprocess.DEVNULL, check=True)
    check_statuses()
    check_arguments()
    check_outputs()
    check_reader_gone()
    check_input_that_does_not_block()
    check_output_that_does_not_block()
    check_named_pipe()
    for blocks in (True, False):
        check_terminal(blocks)
    check_link()
    lamp = copy_repository(os.path.join(os.getcwd(), "copy"))
    run([lamp])
    check_folder_that_cannot_be_written(lamp)
    folder = os.path.join(os.getcwd(), "stand-in")
    way = stand_in(folder)
    check_first_use(lamp, folder, way)
    check_waiting(lamp, folder, way)
    if sys.argv[1:] == ["--rebuild"]:
        check_built_again(lamp)
    print(f"lamp and spell: {checks} checks of their manners ({round(time.monotonic() - start)} s)")


if __name__ == "__main__":
    with tempfile.TemporaryDirectory() as room:
        os.chmod(room, 0o755)
        os.chdir(room)
        try:
            main()
        finally:
            os.chdir("/")
