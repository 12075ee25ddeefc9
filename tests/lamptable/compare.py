"""Holds tools/lamptable to tables that were worked out by hand, and to what is stored beside the example lists.

Without the Rattle kit it tests only what needs no list run, and says so.
"""

import csv
import io
import json
import os
import shutil
import signal
import subprocess
import sys
import tempfile
import time

ROOT = os.path.dirname(os.path.dirname(os.path.dirname(os.path.abspath(__file__))))
EXAMPLES = ["three.list", "advsimd.list", "streaming.list"]

HEAD = "list,place,word,text,family,refusal,toggled,written,rate\n"
SUMS_HEAD = ",words,refused,toggled,written,rate"

# Document 01's list, with the texts of request One.
THREE = """\
three.list,1,0xC1A20008,"smlsll za.s[w8, 0:3, vgx2], { z0.b-z1.b }, { z2.b-z3.b }",D,,1024,1024,100
three.list,2,0x0E228020,"smlal v0.8h, v1.8b, v2.8b",B,3,,,
three.list,3,0xC1A20000,"smlall za.s[w8, 0:3, vgx2], { z0.b-z1.b }, { z2.b-z3.b }",D,,1024,1024,100
"""

# A reserved size has no text and no family.
ADVSIMD = """\
advsimd.list,1,0x0E228020,"smlal v0.8h, v1.8b, v2.8b",B,,16,128,12
advsimd.list,2,0x2F726820,"umlsl v0.4s, v1.4h, v2.h[7]",A,,40,128,31
advsimd.list,3,0x2F722820,"umlal v0.4s, v1.4h, v2.h[7]",A,,40,128,31
advsimd.list,4,0x0E22A020,"smlsl v0.8h, v1.8b, v2.8b",B,,16,128,12
advsimd.list,5,0x0EE28020,,,3,,,
advsimd.list,6,0x44BA3820,"sqdmlslb z0.s, z1.h, z2.h[7]",C,3,,,
"""

STREAMING = """\
streaming.list,1,0x44BA3820,"sqdmlslb z0.s, z1.h, z2.h[7]",C,,24,256,9
streaming.list,2,0x44F23C20,"sqdmlslt z0.d, z1.s, z2.s[3]",C,,4,256,1
streaming.list,3,0xC1A20008,"smlsll za.s[w8, 0:3, vgx2], { z0.b-z1.b }, { z2.b-z3.b }",D,,648,2048,31
streaming.list,4,0xC1E22001,"smlall za.d[w9, 4:7, vgx2], { z0.h-z1.h }, { z2.h-z3.h }",D,,160,2048,7
streaming.list,5,0xC1A54010,"umlall za.s[w10, 0:3, vgx4], { z0.b-z3.b }, { z4.b-z7.b }",D,,116,4096,2
streaming.list,6,0xC1E20800,"smlal za.s[w8, 0:1, vgx2], { z0.h-z1.h }, { z2.h-z3.h }",E,,188,1024,18
streaming.list,7,0xC1E16803,"smlal za.s[w11, 6:7, vgx4], { z0.h-z3.h }, { z0.h-z3.h }",E,,388,2048,18
streaming.list,8,0x0E228020,"smlal v0.8h, v1.8b, v2.8b",B,4,,,
"""

# By hand: D toggles 648+160+116+1024+1024 of 2048+2048+4096+1024+1024, which is 29.02 percent, and so on.
FAMILIES = """\
A,2,0,80,256,31
B,4,2,32,256,12
C,3,1,28,512,5
D,5,0,2972,10240,29
E,2,0,576,3072,18
,1,1,0,0,0
"""

# `smlal` is of B and of E: 16+188+388 of 128+1024+2048 is 18.5 percent.
MNEMONICS = """\
smlal,5,2,592,3200,18
smlall,2,0,1184,3072,38
smlsl,1,0,16,128,12
smlsll,2,0,1672,3072,54
sqdmlslb,2,1,24,256,9
sqdmlslt,1,0,4,256,1
umlal,1,0,40,128,31
umlall,1,0,116,4096,2
umlsl,1,0,40,128,31
,1,1,0,0,0
"""

# The totals are those of the stored outputs.
LISTS_HEAD = f"list{SUMS_HEAD},refusal,place\n"
LISTS = """\
three.list,3,1,2048,2048,100,,
advsimd.list,6,2,112,512,21,,
streaming.list,8,1,1528,11776,12,,
"""

SETTINGS = bytes.fromhex("80 01 01 00 00 00 00 00")
WORD = bytes.fromhex("A0 80 8A 71")

# Lists that are refused as a whole, and their refusal and place.
REFUSED = {
    "empty": (b"", "7", "0"),
    "cut in Z": (SETTINGS + bytes(511), "7", "8"),
    "cut before n": (SETTINGS + bytes(512), "7", "520"),
    "cut in a word": (SETTINGS + bytes(512) + b"\x01" + WORD[:-1], "7", "521"),
    "longer form": (b"\x80\x81\x00", "8", "0"),
    "too many": (SETTINGS + bytes(512) + b"\x81\x08", "9", "520"),
    "a byte more": (SETTINGS + bytes(512) + b"\x01" + WORD + b"\x00", "10", "525"),
    "no such VL": (b"\x00" + bytes(6), "1", "0"),
}

# Good lists.
MADE = {
    "no words": SETTINGS + bytes(512) + b"\x00",
    "of no family": SETTINGS + bytes(512) + b"\x04" + b"\x00\x01\x7f\xff\xff\xff\xff\x0f",
}

# Names that CSV has to quote, that are no text, or that look like options.
ODD_NAMES = [b"a,b", b'a"b', b'"', b"a\nb", b"a\rb", b"a\r\nb", b"a\tb", b" a ", "ü".encode(), b"\xff\xfe", b"-odd"]


def differs(case, fault):
    print(f"{case}: {fault}")
    sys.exit(1)


def same(case, got, due):
    if got != due:
        differs(case, f"gave\n{got}\nand not\n{due}")


def lamptable(arguments, tool=os.path.join(ROOT, "tools/lamptable"), **more):
    # Through this Python, and not by its own first line: some machines take long to find the one that that names. `-S`:
    # it starts sooner, and finds nothing beyond its own library.
    given = {"stdin": subprocess.DEVNULL, "stdout": subprocess.PIPE, "stderr": subprocess.PIPE} | more
    if "input" in more:
        del given["stdin"]
    return subprocess.run([sys.executable, "-S", tool] + arguments, check=False, **given)


def table(case, arguments, status=0, said="", **more):
    """The text of a table, for which lamptable must end so and say this."""
    done = lamptable(arguments, **more)
    same(f"{case}: status and message", (done.returncode, done.stderr.decode()), (status, said))
    return done.stdout.decode("utf-8", "surrogateescape")


def records_of(text):
    """The rows of CSV as JSON should have them: numbers for numbers, None for what is empty."""
    rows = []
    for row in csv.DictReader(io.StringIO(text, newline="")):
        rows.append({name: int(value) if value.isdigit() else value or None for name, value in row.items()})
    return rows


# ---- with the kit


def check_tables():
    same("three.list", table("three.list", ["three.list"]), HEAD + THREE)
    same("three lists", table("three lists", EXAMPLES), HEAD + THREE + ADVSIMD + STREAMING)
    same("one list twice", table("one list twice", ["three.list"] * 2), HEAD + THREE * 2)
    for key, due in (("family", FAMILIES), ("mnemonic", MNEMONICS)):
        same(f"--by {key}", table(key, ["--by", key] + EXAMPLES), key + SUMS_HEAD + "\n" + due)
    same("--by list", table("--by list", EXAMPLES + ["--by=list"]), LISTS_HEAD + LISTS)


def check_json():
    got = json.loads(table("--json", ["--json"] + EXAMPLES))
    due = {
        "words": records_of(HEAD + THREE + ADVSIMD + STREAMING),
        "lists": records_of(LISTS_HEAD + LISTS),
        "families": records_of("family" + SUMS_HEAD + "\n" + FAMILIES),
        "mnemonics": records_of("mnemonic" + SUMS_HEAD + "\n" + MNEMONICS),
    }
    same("--json", got, due)
    same("--json: the order", list(got), list(due))
    got = json.loads(table("--json of a refused list", ["--json", "empty"], 1, "lamptable: empty: refused 7 at 0\n"))
    entry = {"list": "empty", "words": 0, "refused": 0, "toggled": 0, "written": 0, "rate": 0, "refusal": 7, "place": 0}
    same("--json of a refused list", got, {"words": [], "lists": [entry], "families": [], "mnemonics": []})


def counts_of(record):
    return f"{record['toggled']} {record['written']} {record['rate']}"


def check_stored():
    """The words and the totals of the examples, as they are stored beside them."""
    got = json.loads(table("--json", ["--json"] + EXAMPLES))
    for total in got["lists"]:
        name = total["list"]
        lines = [f"words {total['words']}"]
        for row in got["words"]:
            if row["list"] == name:
                end = counts_of(row) if row["refusal"] is None else f"refused {row['refusal']}"
                lines.append(f"{row['place']} {row['word'][2:]} {end}")
        lines.append(f"total {counts_of(total)}")
        with open(os.path.join(ROOT, "examples", name.replace(".list", ".out")), encoding="ascii") as file:
            same(name, "\n".join(lines) + "\n", file.read())


def check_refused():
    """Refused lists among good ones: all are done, and the status is 1."""
    names = list(REFUSED)
    said = "".join(f"lamptable: {name}: refused {REFUSED[name][1]} at {REFUSED[name][2]}\n" for name in names)
    rows = "".join(f"{name},{place},,,,{refusal},,,\n" for name, (_, refusal, place) in REFUSED.items())
    arguments = ["three.list"] + names + ["three.list"]
    same("refused lists", table("refused lists", arguments, 1, said), HEAD + THREE + rows + THREE)
    sums = "".join(f"{name},0,0,0,0,0,{refusal},{place}\n" for name, (_, refusal, place) in REFUSED.items())
    same("refused lists, --by list", table("refused lists", ["--by", "list"] + names, 1, said), LISTS_HEAD + sums)
    same("refused, --by family", table("refused lists", ["--by", "family"] + names, 1, said), f"family{SUMS_HEAD}\n")


def check_made():
    same("no words", table("no words", ["no words"]), HEAD)
    same("no words, --by list", table("no words", ["--by", "list", "no words"]), f"{LISTS_HEAD}no words,0,0,0,0,0,,\n")
    same("no words, --by mnemonic", table("no words", ["--by", "mnemonic", "no words"]), f"mnemonic{SUMS_HEAD}\n")
    words = ("00000000", "00000001", "0000007F", "FFFFFFFF")
    rows = "".join(f"of no family,{i},0x{word},,,3,,,\n" for i, word in enumerate(words, 1))
    same("of no family", table("of no family", ["of no family"]), HEAD + rows)


def check_names():
    """Names come out of CSV and of JSON as they went in."""
    for name in ODD_NAMES:
        shutil.copy("three.list", name)
    names = [os.fsdecode(name) for name in ODD_NAMES]
    arguments = names[:-1] + ["--", names[-1]]
    text = table("odd names", ["--by", "list"] + arguments)
    same("odd names", [row["list"] for row in csv.DictReader(io.StringIO(text, newline=""))], names)
    rows = list(csv.DictReader(io.StringIO(table("odd names", arguments), newline="")))
    same("odd names of words", [row["list"] for row in rows], [name for name in names for _ in range(3)])
    got = json.loads(table("odd names", ["--json"] + arguments))
    same("odd names in JSON", [entry["list"] for entry in got["lists"]], names)


def check_places():
    """Standard input, -o, a symbolic link, and its own first line, from another folder."""
    with open("three.list", "rb") as file:
        contents = file.read()
    due = HEAD + THREE.replace("three.list", "-")
    same("standard input", table("standard input", ["-"], input=contents), due)
    same("-o", table("-o", ["three.list", "-o", "table.csv"]), "")
    with open("table.csv", "rb") as file:
        same("table.csv", file.read().decode(), HEAD + THREE)
    os.symlink(os.path.join(ROOT, "tools/lamptable"), "lamptable")
    same("by a link", table("by a link", ["three.list"], tool="./lamptable"), HEAD + THREE)
    done = subprocess.run([os.path.join(ROOT, "tools/lamptable"), "three.list"], capture_output=True, check=False)
    same("by its first line", (done.returncode, done.stdout.decode(), done.stderr), (0, HEAD + THREE, b""))


def check_output():
    """Where the table cannot be written: 3, also where a list was refused. Where its reader has gone: the signal."""
    with open("/dev/full", "wb") as full:
        done = lamptable(["empty", "three.list"], stdout=full)
    same("/dev/full", (done.returncode, done.stderr), (3, b"lamptable: standard output: No space left on device\n"))
    for path, fault in (("/dev/full", "No space left on device"), ("missing/table", "No such file or directory")):
        same(f"-o {path}", table(path, ["three.list", "-o", path], 3, f"lamptable: {path}: {fault}\n"), "")
    reader, writer = os.pipe()
    os.close(reader)
    done = lamptable(["three.list"], stdout=writer)
    os.close(writer)
    same("a reader that has gone", (done.returncode, done.stderr), (-signal.SIGPIPE, b""))


def check_unread():
    """A list that cannot be read: 2, and nothing is written, whatever went before."""
    os.mkdir("folder")
    for name, fault in (("missing", "No such file or directory"), ("folder", "Is a directory")):
        arguments = ["three.list", name, "-o", "untouched"]
        same(name, table(name, arguments, 2, f"lamptable: {name}: {fault}\n"), "")
        if os.path.exists("untouched"):
            differs(name, "wrote something, where it refused")


# ---- without the kit

# What is given, and what must be said of it.
BAD = [
    ([], "a list is due"),
    (["--by", "family"], "a list is due"),
    (["--by", "word", "three.list"], "--by: 'word' is none of family, mnemonic, list"),
    (["--by", "", "three.list"], "--by: '' is none of"),
    (["--by", "list", "--by", "list", "three.list"], "--by is given 2 times"),
    (["--json", "--by", "list", "three.list"], "--by and --json"),
    (["--json", "--json", "three.list"], "--json is given 2 times"),
    (["--json=yes", "three.list"], "--json"),
    (["three.list", "-o"], "-o"),
    (["--force", "three.list"], "--force"),
    (["-", "three.list", "-"], "- is given twice"),
]


def check_bad(arguments, said):
    done = lamptable(arguments)
    fault = done.stderr.decode()
    if done.returncode != 2 or done.stdout != b"":
        differs(f"{arguments}", f"ended with {done.returncode}, and printed '{done.stdout}'")
    if not fault.startswith("lamptable: ") or fault.count("\n") != 1 or said not in fault:
        differs(f"{arguments}", f"said '{fault}', and not '{said}'")


def check_help():
    lines = table("--help", ["--help"]).splitlines()
    if not lines[0].startswith("usage: tools/lamptable") or len(lines) > 40:
        differs("--help", "is not one screen that begins with the usage")


def check_without_kit():
    """Where there is no `rt` on the path."""
    os.mkdir("path")
    for name in ("bash", "dirname"):
        os.symlink(shutil.which(name), f"path/{name}")
    done = lamptable(["three.list"], env=os.environ | {"PATH": os.path.abspath("path")})
    if done.returncode != 2 or done.stdout != b"" or b"lamptable: a table needs ./lamp" not in done.stderr:
        differs("without the kit", f"ended with {done.returncode}, and said '{done.stderr.decode()}'")


def script(path, *lines):
    with open(path, "w", encoding="ascii") as file:
        file.write("\n".join(("#!/bin/sh", *lines, "")))
    os.chmod(path, 0o755)


# What a ./lamp in place of ours runs; the status, what must be said, and a row.
ODD_LAMPS = [
    (("false",), 2, "is no answer for a list", ""),
    (("cat",), 2, "is no answer for a list", ""),
    (("echo", "words 1"), 2, "is no answer for a list", ""),
    (("printf", "words 2\\n1 0E228020 16 128 12\\ntotal 16 128 12\\n"), 2, "is no answer for a list", ""),
    (("printf", "words 1\\n1 0E228020 16 128\\ntotal 16 128 12\\n"), 2, "is no answer for a list", ""),
    (("sh", "-c", "exit 3"), 2, "ended with 3", ""),
    (("sh", "-c", "kill -9 $$"), 2, "ended with -9", ""),
    (("./missing",), 2, "No such file", ""),
    # ./spell is asked next, and here that answers nothing.
    (("printf", "words 1\\n1 0E228020 16 128 12\\ntotal 16 128 12\\n"), 2, "has answered 0 of 1 lines", ""),
    # A refusal with status 1 is one with status 0.
    (("sh", "-c", "echo refused 9 at 520; exit 1"), 1, "three.list: refused 9 at 520", "three.list,520,,,,9,,,\n"),
]


def check_odd_lamps():
    """With programs in place of ours, which answer what ours do not."""
    os.makedirs("odd/tools")
    for name in ("mklist", "lamptable"):
        shutil.copy(os.path.join(ROOT, "tools", name), f"odd/tools/{name}")
    script("odd/spell", "echo true")
    for command, status, said, row in ODD_LAMPS:
        script("odd/lamp", *(f"printf '%s\\n' '{word}'" for word in command))
        done = lamptable(["three.list"], tool="odd/tools/lamptable")
        fault = done.stderr.decode()
        same(f"{command}", (done.returncode, done.stdout.decode()), (status, HEAD + row if row else ""))
        if not fault.startswith("lamptable: ") or fault.count("\n") != 1 or said not in fault:
            differs(f"{command}", f"said '{fault}', and not '{said}'")


WITH_KIT = [
    check_tables,
    check_json,
    check_stored,
    check_refused,
    check_made,
    check_names,
    check_places,
    check_output,
    check_unread,
]


def main():
    start = time.monotonic()
    for name in EXAMPLES:
        shutil.copy(os.path.join(ROOT, "examples", name), name)
    for name, contents in [(name, each[0]) for name, each in REFUSED.items()] + list(MADE.items()):
        with open(name, "wb") as file:
            file.write(contents)
    for arguments, said in BAD:
        check_bad(arguments, said)
    for check in (check_help, check_without_kit, check_odd_lamps):
        check()
    has_kit = shutil.which("rt") is not None
    if has_kit:
        # What rt says where it has to prove the programs first does not come from lamptable.
        for program in ("lamp", "spell"):
            subprocess.run([os.path.join(ROOT, program), "--where"], stdout=subprocess.DEVNULL, check=True)
        for check in WITH_KIT:
            check()
    else:
        print("no Rattle kit: no list is run for lamptable")
    runs = f"{len(EXAMPLES)} lists in every table, {len(REFUSED)} refused ones, " if has_kit else ""
    seconds = round(time.monotonic() - start)
    print(f"lamptable: {runs}{len(BAD)} faults refused, {len(ODD_LAMPS)} programs in place of ours ({seconds} s)")


if __name__ == "__main__":
    with tempfile.TemporaryDirectory() as room:
        os.chdir(room)
        try:
            main()
        finally:
            os.chdir("/")
