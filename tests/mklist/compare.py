"""Holds tools/mklist to bytes that were worked out by hand, and gives some of its lists to ./lamp.

It needs the Rattle kit only for ./lamp, for words that are given as text and for disassemblies, and says so where there
is none.
"""

import os
import runpy
import shutil
import subprocess
import sys
import tempfile
import time
import traceback
from types import SimpleNamespace

ROOT = os.path.dirname(os.path.dirname(os.path.dirname(os.path.abspath(__file__))))

# 0E228020 and C1A20008 as document 01 writes them.
WORD_B = "A0 80 8A 71"
WORD_D = "88 80 88 8D 0C"

# C1A20008, 0E228020 and C1A20000 as text.
TEXT_D = "smlsll za.s[w8, 0:3, vgx2], { z0.b-z1.b }, { z2.b-z3.b }"
TEXT_B = "smlal v0.8h, v1.8b, v2.8b"
TEXT_ADDS = "smlall za.s[w8, 0:3, vgx2], { z0.b-z1.b }, { z2.b-z3.b }"

# Settings that are good, for cases in which something else matters.
PLAIN = ["--vl", "128", "--features", "1", "--modes", "none", "--fill", "00"]
PLAIN_HEAD = "80 01 01 00 00 00 00 00"

# One piece of code as GNU's objdump 2.40 prints it, and LLVM's 14 and 19: C1A20008 is unknown to the first two.
GNU_DISASSEMBLY = b"""
s.o:     file format elf64-littleaarch64


Disassembly of section .text:

0000000000000000 <kernel>:
   0:\t0e228020 \tsmlal\tv0.8h, v1.8b, v2.8b
   4:\tc1a20008 \t.inst\t0xc1a20008 ; undefined
   8:\t17fffffe \tb\t0 <kernel>
   c:\t0e228020 \t.word\t0x0e228020
  10:\tfffffffe \t.word\t0xfffffffe
\t...
  14:\td65f03c0 \tret
"""
LLVM_14_DISASSEMBLY = b"""
s.o:\tfile format elf64-littleaarch64

Disassembly of section .text:

0000000000000000 <kernel>:
       0: 20 80 22 0e  \tsmlal\tv0.8h, v1.8b, v2.8b
       4: 08 00 a2 c1  \t<unknown>
       8: fe ff ff 17  \tb\t0x0 <kernel>

000000000000000c <$d>:
       c:\t20 80 22 0e\t.word\t0x0e228020
      10:\tfe ff ff ff\t.word\t0xfffffffe

0000000000000014 <$x>:
      14: c0 03 5f d6  \tret
"""
LLVM_19_DISASSEMBLY = b"""
s.o:\tfile format elf64-littleaarch64

Disassembly of section .text:

0000000000000000 <kernel>:
       0: 0e228020     \tsmlal\tv0.8h, v1.8b, v2.8b
       4: c1a20008     \tsmlsll\tza.s[w8, 0x0:0x3, vgx2], { z0.b, z1.b }, { z2.b, z3.b }
       8: 17fffffe     \tb\t0x0 <kernel>
       c: 20 80 22 0e  \t.word\t0x0e228020
      10: fe ff ff ff  \t.word\t0xfffffffe
      14: d65f03c0     \tret
"""

# Words in every form that a file may have them in.
FORMS = b"""\
/* a table */ 0x0E228020, 0xC1A20008, // two
0e228020,c1a20008 C1A20008\t0X0E228020
.inst 0x0e228020 ; undefined
\t.INST\t0xC1A20008, 0x0e228020   # two more
  .word 0xc1a20008
.long\t0e228020 /* one */ // and /* a remark
/* none */ # none
C1A20008"""
FORMS_WORDS = "BDBDDBBDBDBD"

# Texts of C1A20008, C1E92891 and 0E228020 as assemblers and disassemblers print them.
SPELLINGS = b"""\
SMLSLL ZA.S[W8, 0:3, VGx2], {Z0.B-Z1.B}, {Z2.B-Z3.B}
smlsll\tza.s[w8, 0x0:0x3, vgx2], { z0.b, z1.b }, { z2.b, z3.b } // a remark
\tumlal   za.s[ w9 , 2 : 3,vgx4 ] , { z4.h - z7.h },{z8.h-z11.h}\r
  smlal\tv0.8h , v1.8b,v2.8b ; /* none */
"""
SPELLINGS_WORDS = WORD_D * 2 + "91 D1 A4 8F 0C" + WORD_B

# Files that the cases below name.
FILES = {
    "gnu": GNU_DISASSEMBLY,
    "llvm-14": LLVM_14_DISASSEMBLY,
    "llvm-19": LLVM_19_DISASSEMBLY,
    # As it comes out of a terminal or a mail, and with its end cut off inside a word.
    "blanks": GNU_DISASSEMBLY.expandtabs().replace(b"\n", b"\r\n") + b"  18:   0e2280",
    "no family": b"   8:\t17fffffe \tb\t0 <kernel>\n",
    "ends early": b"   0:\t0e228020",
    "many": b"   0:\t0e228020 \tsmlal\tv0.8h, v1.8b, v2.8b\n" * 1025,
    "no words": b"0000000000000000 <f>:\n   0:\tadd\tx0, x0, x1\n   4:\tfadd\tv0.4s, v0.4s, v1.4s\n  ...\n",
    "x86": b"a.o:     file format elf64-x86-64\n\n   0:\t48 83 ec 08          \tsub    $0x8,%rsp\n",
    "x86 without a head": b"   0:\te8 00 00 00 00       \tcall   5 <f+0x5>\n   5:\tc3                   \tret\n",
    "arm": b"a.o:     file format elf32-littlearm\n\n   0:\te1a00000 \tnop\n",
    "forms": FORMS,
    "spellings": SPELLINGS,
    "short": b"0E228020\n7F # seven bits\n",
    "seven": b"0xE228020\n",
    "nine": b"0E228020, 00E228020\n",
    "inst": b".inst\n",
    "inst of seven": b".inst 0xe228020\n",
    "inst of a text": b".inst smlal v0.8h, v1.8b, v2.8b\n",
    "second": b"0E228020, 0E22802G\n",
    "two commas": b"0E228020,,C1A20008\n",
    "last commas": b"0E228020,,\n",
    "first comma": b", 0E228020\n",
    "a comma": b"0E228020\n, # nothing else\n",
    "open": b"0E228020 /* a remark\n0E228020 */\n",
    "address": b"   0:\t0e228020 \tsmlal\tv0.8h, v1.8b, v2.8b\n",
    "label": b"kernel:\n",
    "z512": bytes(range(256)) * 2,
    "z511": bytes(511),
    "z513": bytes(513),
    "words": b"\xef\xbb\xbf# two words, \xff and a remark\r\n0E228020 # the first\r\n\r\n  0xC1A20008",
    "none": b"# no word at all\n",
    "bad": b"0E228020\n\n# the third line\n0E22802G\n",
    "texts": f"# two texts and a word\r\n{TEXT_B} # the first\r\n\n  {TEXT_D}\n0xC1A20000".encode(),
    "capital": f"{TEXT_B}\n\n{TEXT_B.upper()}\n".encode(),
    "1025": b"0E228020\n" * 1025,
}


def splitmix(seed, count):
    """Bytes of splitmix64's numbers, each worked out by itself."""
    below = 2**64
    data = b""
    for i in range(1, count + 1):
        number = (seed + i * 0x9E3779B97F4A7C15) % below
        for shift, factor in ((30, 0xBF58476D1CE4E5B9), (27, 0x94D049BB133111EB), (31, 1)):
            number = (number ^ number // 2**shift) * factor % below
        data += number.to_bytes(8, "little")
    return data


# The first numbers from this seed, as they are published for the generator.
PUBLISHED_SEED = 1234567
PUBLISHED = (
    6457827717110365317,
    3203168211198807973,
    9817491932198370423,
    4593380528125082431,
    16408922859458223821,
)


def with_registers(z, size, **registers):
    """Z with some registers of `size` bytes replaced, which are given as r0, r31."""
    for name, contents in registers.items():
        start = int(name[1:]) * size
        z = z[:start] + contents + z[start + size :]
    return z


def by_letters(letters):
    """The bytes of words that are given by B and D."""
    return "".join(WORD_B if letter == "B" else WORD_D for letter in letters)


def plain(words, z=bytes(512), head=PLAIN_HEAD):
    """A list with the settings and Z of PLAIN, of the bytes of its count and words."""
    return bytes.fromhex(head) + z + bytes.fromhex(words)


# What is given, what is on standard input, and the list that is due.
GOOD = {
    "document 01's list": (
        ["--vl", "128", "--features", "sme,sme2", "--modes", "sm,za", "--select", "0,0,0,0", "--fill", "01"]
        + ["C1A20008", "0E228020", "C1A20000"],
        b"",
        plain("03 88 80 88 8D 0C A0 80 8A 71 80 80 88 8D 0C", b"\x01" * 512, "80 01 0C 03 00 00 00 00"),
    ),
    "the same in numbers, in another order": (
        ["0xc1a20008", "--fill=0x1", "--modes=3", "0xE228020", "--features=12", "--vl=128", "C1A20000"],
        b"",
        plain("03 88 80 88 8D 0C A0 80 8A 71 80 80 88 8D 0C", b"\x01" * 512, "80 01 0C 03 00 00 00 00"),
    ),
    "VL 256, no features, no words": (
        ["--vl", "256", "--features", "none", "--modes", "None", "--fill", "A5"],
        b"",
        plain("00", b"\xa5" * 1024, "80 02 00 00 00 00 00 00"),
    ),
    "VL 512, all features and modes": (
        ["--vl", "512", "--features", "AdvSIMD,SVE2,SME,SME2,I16I64", "--modes", "ZA, SM", "--fill", "FF"],
        b"",
        plain("00", b"\xff" * 2048, "80 04 1F 03 00 00 00 00"),
    ),
    "1,024 words": (PLAIN + ["0E228020"] * 1024, b"", plain("80 08" + WORD_B * 1024)),
    "numbers of one and two groups": (
        PLAIN + ["--select", "127,128,16383,16384"],
        b"",
        plain("00", head="80 01 01 00 7F 80 01 FF 7F 80 80 01"),
    ),
    "numbers of three and four groups": (
        PLAIN + ["--select", "2097151,2097152,268435455,268435456"],
        b"",
        plain("00", head="80 01 01 00 FF FF 7F 80 80 80 01 FF FF FF 7F 80 80 80 80 01"),
    ),
    "the greatest number": (
        PLAIN + ["--select", "4294967295,0xFFFFFFFF,0, 0X80"],
        b"",
        plain("00", head="80 01 01 00 FF FF FF FF 0F FF FF FF FF 0F 00 80 01"),
    ),
    "words of one group and of five": (
        PLAIN + ["0", "7F", "80", "0000007f", "FFFFFFFF"],
        b"",
        plain("05 00 7F 80 01 7F FF FF FF FF 0F"),
    ),
    "Z from a file": (PLAIN[:4] + ["--z", "z512", "7F"], b"", plain("01 7F", FILES["z512"])),
    "Z from a seed": (PLAIN[:4] + ["--seed", str(PUBLISHED_SEED)], b"", plain("00", splitmix(PUBLISHED_SEED, 64))),
    "Z from seed 0": (PLAIN[:4] + ["--seed", "0"], b"", plain("00", splitmix(0, 64))),
    "Z from the greatest seed, at VL 512": (
        ["--vl", "512", "--features", "1", "--seed", "0xFFFFFFFFFFFFFFFF"],
        b"",
        plain("00", splitmix(2**64 - 1, 256), "80 04 01 00 00 00 00 00"),
    ),
    "one register": (
        PLAIN[:4] + ["--reg", "3=000102030405060708090A0b0C0d0E0f"],
        b"",
        plain("00", with_registers(bytes(512), 16, r3=bytes(range(16)))),
    ),
    "the first and the last register, over --fill": (
        PLAIN[:4] + ["--reg", "31=" + "ab" * 16, "--fill", "07", "--reg=00=" + "CD" * 16],
        b"",
        plain("00", with_registers(b"\x07" * 512, 16, r0=b"\xcd" * 16, r31=b"\xab" * 16)),
    ),
    "a register over --z": (
        PLAIN[:4] + ["--z", "z512", "--reg", "9=" + "00" * 16],
        b"",
        plain("00", with_registers(FILES["z512"], 16, r9=bytes(16))),
    ),
    "a register over --seed, at VL 256": (
        ["--vl", "256", "--features", "1", "--seed", "1", "--reg", "30=" + "11" * 32],
        b"",
        plain("00", with_registers(splitmix(1, 128), 32, r30=b"\x11" * 32), "80 02 01 00 00 00 00 00"),
    ),
    "words from a file": (PLAIN + ["--words", "words"], b"", plain("02" + WORD_B + WORD_D)),
    "words from standard input": (PLAIN + ["--words", "-"], b"c1a20008\n0e228020\n", plain("02" + WORD_D + WORD_B)),
    "words of the command line and then of a file": (
        PLAIN + ["--words", "words", "7F"],
        b"",
        plain("03 7F" + WORD_B + WORD_D),
    ),
    "a file without a word": (PLAIN + ["--words", "none"], b"", plain("00")),
    "words in every form": (PLAIN + ["--words", "forms"], b"", plain("0C" + by_letters(FORMS_WORDS))),
    "arguments with commas and a comment": (
        PLAIN + ["0x0E228020,", "0xC1A20008 ; undefined", ".inst 0x7F", "7F,\n7F"],
        b"",
        plain("05" + WORD_B + WORD_D + "7F 7F 7F"),
    ),
    "words behind --": (PLAIN + ["7F", "--", "0E228020"], b"", plain("02 7F" + WORD_B)),
}

# The same, with texts among the words.
GOOD_TEXTS = {
    "document 01's list of texts": (
        ["--vl", "128", "--features", "sme,sme2", "--modes", "sm,za", "--fill", "01", TEXT_D, TEXT_B, TEXT_ADDS],
        b"",
        GOOD["document 01's list"][2],
    ),
    "a text without vgx": (PLAIN + [TEXT_D.replace(", vgx2", "")], b"", plain("01" + WORD_D)),
    "words and texts by turns": (PLAIN + ["7F", TEXT_B, "0x7f", TEXT_B], b"", plain("04 7F" + WORD_B + "7F" + WORD_B)),
    "texts from a file": (PLAIN + ["--words", "texts"], b"", plain("03" + WORD_B + WORD_D + "80 80 88 8D 0C")),
    "texts from standard input": (PLAIN + ["--words", "-", TEXT_D], TEXT_B.encode(), plain("02" + WORD_D + WORD_B)),
    "texts as others print them": (PLAIN + ["--words", "spellings"], b"", plain("04" + SPELLINGS_WORDS)),
    "texts in capitals": (PLAIN + ["--words", "capital"], b"", plain("02" + WORD_B * 2)),
    "a text with a blank behind it": (PLAIN + ["0E228020", f"{TEXT_B} "], b"", plain("02" + WORD_B * 2)),
    "1,024 texts": (PLAIN + [TEXT_B] * 1024, b"", plain("80 08" + WORD_B * 1024)),
}

TAKEN = plain("03" + by_letters("BDB"))
TAKEN_SAID = "3 words taken, 1 of them data (.word); left out: 3 of no family"
OF_FAMILIES = "C1A20008 C1A54010 C1E20800 C1E16803 44BA3820 44F23C20 2F726820 0E228020".split()

# What is given, on standard input too, and what mklist must say beside a list that is as due, or that is not looked at.
# Where modes are not given:
WARNED = {
    "D": (["12", "C1A20008"], "1 word that needs sm and za"),
    "D and E, and none that needs a mode": (["15"] + OF_FAMILIES, "4 words that need sm and za"),
    "C": (["4", "44BA3820", "44F23C20"], "2 words that need sm or the feature sve2"),
    "C, D and E": (["13"] + OF_FAMILIES, "4 words that need sm and za, 2 words that need sm or the feature sve2"),
    "D without SME2": (["1", "C1A20008"], "1 word that needs sm and za"),
    "C, with SVE2": (["3", "44BA3820", "44F23C20"], None),
    "A and B": (["31", "2F726820", "0E228020"], None),
    "no words": (["31"], None),
}
# Disassemblies, for which ./spell is asked:
DISASSEMBLED = {
    "GNU's objdump": (["--objdump", "gnu"], b"", TAKEN, f"--objdump gnu: {TAKEN_SAID}"),
    "LLVM's objdump 14": (["--objdump", "llvm-14"], b"", TAKEN, f"--objdump llvm-14: {TAKEN_SAID}"),
    "LLVM's objdump 19": (["--objdump", "llvm-19"], b"", TAKEN, f"--objdump llvm-19: {TAKEN_SAID}"),
    "blanks, and an end inside a word": (["--objdump", "blanks"], b"", TAKEN, f"--objdump blanks: {TAKEN_SAID}"),
    "standard input": (["--objdump", "-"], GNU_DISASSEMBLY, TAKEN, f"--objdump standard input: {TAKEN_SAID}"),
    "no word of a family": (
        ["--objdump", "no family"],
        b"",
        plain("00"),
        "--objdump no family: 0 words taken; left out: 1 of no family",
    ),
    "an end behind a word": (
        ["--objdump", "ends early"],
        b"",
        plain("01" + WORD_B),
        "--objdump ends early: 1 word taken; left out: 0 of no family",
    ),
    "words of all three places": (
        ["--objdump", "gnu", "--words", "-", "7F"],
        b"C1A20008",
        plain("05 7F" + by_letters("DBDB")),
        f"--objdump gnu: {TAKEN_SAID}",
    ),
}

SETTINGS = ["--vl", "128", "--features", "12", "--modes", "3"]

# What is given, and what mklist must say of it.
BAD = [
    ([], ["--vl is due"]),
    (["--vl", "128", "--fill", "00"], ["--features is due"]),
    (["--vl", "192", "--features", "1", "--fill", "00"], ["--vl", "192", "128, 256, 512"]),
    (["--vl", "1024", "--features", "1", "--fill", "00"], ["--vl", "1024"]),
    (["--vl", "128.0", "--features", "1", "--fill", "00"], ["--vl", "'128.0'"]),
    (["--vl", "128", "--features", "neon", "--fill", "00"], ["--features", "'neon'", "advsimd"]),
    (["--vl", "128", "--features", "32", "--fill", "00"], ["--features", "32"]),
    (["--vl", "128", "--features", "8", "--fill", "00"], ["--features", "sme2 needs sme"]),
    (["--vl", "128", "--features", "advsimd,sme2", "--fill", "00"], ["--features", "sme2 needs sme"]),
    (["--vl", "128", "--features", "16", "--fill", "00"], ["--features", "i16i64 needs sme"]),
    (["--vl", "128", "--features", "1,4", "--fill", "00"], ["--features", "'1,4'"]),
    (PLAIN[:4] + ["--fill", "00", "--modes", "sm"], ["--modes", "sm without", "sme"]),
    (PLAIN[:4] + ["--fill", "00", "--modes", "2"], ["--modes", "za without", "sme"]),
    (PLAIN[:4] + ["--fill", "00", "--modes", ""], ["--modes", "''"]),
    (SETTINGS[:4] + ["--modes", "4", "--fill", "00"], ["--modes", "4"]),
    (SETTINGS[:4] + ["--modes", "streaming", "--fill", "00"], ["--modes", "'streaming'", "sm, za"]),
    (PLAIN + ["--select", "0,4294967296,0,0"], ["W9", "4294967296", "2^32"]),
    (PLAIN + ["--select", "0,0,0,0x100000000"], ["W11", "4294967296"]),
    (PLAIN + ["--select", "0,0,0"], ["--select", "four", "3"]),
    (PLAIN + ["--select", "0,,0,0"], ["W9", "''"]),
    (SETTINGS, ["--fill, --z, --seed or --reg is due"]),
    (SETTINGS + ["--fill", "00", "--z", "z512"], ["--fill and --z"]),
    (SETTINGS + ["--seed", "1", "--z", "z512"], ["--z and --seed"]),
    (SETTINGS + ["--seed", "1", "--fill", "00"], ["--fill and --seed"]),
    (SETTINGS + ["--seed", "1", "--z", "z512", "--fill", "00"], ["--fill and --z and --seed"]),
    (SETTINGS + ["--seed", "18446744073709551616"], ["--seed", "18446744073709551616", "2^64"]),
    (SETTINGS + ["--seed", "0x10000000000000000"], ["--seed", "'0x10000000000000000'"]),
    (SETTINGS + ["--seed", "1.5"], ["--seed", "'1.5'"]),
    (SETTINGS + ["--seed", ""], ["--seed", "''"]),
    (SETTINGS + ["--seed", "1", "--seed", "1"], ["--seed is given 2 times"]),
    (SETTINGS + ["--reg", "32=" + "00" * 16], ["--reg", "0 to 31"]),
    (SETTINGS + ["--reg", "z3=" + "00" * 16], ["--reg", "0 to 31"]),
    (SETTINGS + ["--reg", "=" + "00" * 16], ["--reg", "0 to 31"]),
    (SETTINGS + ["--reg", "00" * 16], ["--reg", "0 to 31"]),
    (SETTINGS + ["--reg", "3"], ["--reg 3", "0 digits", "32", "VL 128"]),
    (SETTINGS + ["--reg", "3=" + "0" * 31], ["--reg 3", "31 digits", "32"]),
    (SETTINGS + ["--reg", "3=" + "0" * 33], ["--reg 3", "33 digits", "32"]),
    (SETTINGS + ["--reg", "3=" + "0" * 30], ["--reg 3", "30 digits", "32"]),
    (["--vl", "256", "--features", "1", "--reg", "3=" + "0" * 32], ["--reg 3", "32 digits", "64", "VL 256"]),
    (SETTINGS + ["--reg", "3=0x" + "0" * 30], ["--reg 3", "hexadecimal"]),
    (SETTINGS + ["--reg", "3=" + "00 " * 16], ["--reg 3", "hexadecimal"]),
    (SETTINGS + ["--reg", "3=" + "00" * 16, "--reg", "03=" + "11" * 16], ["--reg 3 is given twice"]),
    (SETTINGS + ["--fill", "100"], ["--fill", "'100'"]),
    (SETTINGS + ["--fill", "xy"], ["--fill", "'xy'"]),
    (SETTINGS + ["--z", "z511"], ["z511", "511", "512", "VL 128"]),
    (SETTINGS + ["--z", "z513"], ["z513", "513", "512"]),
    (["--vl", "256", "--features", "1", "--z", "z512"], ["z512", "512", "1024", "VL 256"]),
    (SETTINGS + ["--z", "missing"], ["missing", "No such file"]),
    (PLAIN + ["0E228020", "0E22802G"], ["word 2", "'0E22802G'"]),
    (PLAIN + ["00E228020"], ["word 1", "'00E228020'"]),
    (PLAIN + ["0x"], ["word 1", "'0x'"]),
    (PLAIN + ["0E_228020"], ["word 1", "'0E_228020'"]),
    (PLAIN + [""], ["word 1", "''"]),
    (PLAIN + ["7F", " # a remark"], ["word 2", "no word"]),
    (PLAIN + ["7F", ","], ["word 2", "''"]),
    (PLAIN + ["7F 00E228020"], ["word 1", "'00E228020'", "9 hexadecimal digits", "at most eight"]),
    (PLAIN + ["--words", "bad"], ["bad, line 4", "'0E22802G'"]),
    (PLAIN + ["--words", "short"], ["short, line 2", "'7F'", "2 hexadecimal digits", "in a file has eight"]),
    (PLAIN + ["--words", "seven"], ["seven, line 1", "'0xE228020'", "7 hexadecimal digits", "eight"]),
    (PLAIN + ["--words", "nine"], ["nine, line 1", "'00E228020'", "9 hexadecimal digits", "eight"]),
    (PLAIN + ["--words", "inst"], ["inst, line 1", "''"]),
    (PLAIN + ["--words", "inst of seven"], ["line 1", "'0xe228020'", "7 hexadecimal digits"]),
    (PLAIN + ["--words", "inst of a text"], ["line 1", "'smlal'"]),
    (PLAIN + ["--words", "second"], ["second, line 1", "'0E22802G'"]),
    (PLAIN + ["--words", "two commas"], ["two commas, line 1", "''"]),
    (PLAIN + ["--words", "last commas"], ["last commas, line 1", "''"]),
    (PLAIN + ["--words", "first comma"], ["first comma, line 1", "''"]),
    (PLAIN + ["--words", "a comma"], ["a comma, line 2", "''"]),
    (PLAIN + ["--words", "open"], ["open, line 1", "'/*'"]),
    (PLAIN + ["--words", "address"], ["address, line 1", "'0:'"]),
    (PLAIN + ["--words", "label"], ["label, line 1", "'kernel:'"]),
    (PLAIN + ["--words", "-", "--objdump", "-"], ["--words and --objdump", "standard input"]),
    (PLAIN + ["--objdump", "missing"], ["missing", "No such file"]),
    (PLAIN + ["--objdump", "none"], ["--objdump none", "no line"]),
    (PLAIN + ["--objdump", "-"], ["--objdump standard input", "no line"]),
    (PLAIN + ["--objdump", "no words"], ["--objdump no words", "no line"]),
    (PLAIN + ["--objdump", "x86"], ["--objdump x86", "elf64-x86-64"]),
    (PLAIN + ["--objdump", "x86 without a head"], ["--objdump x86", "no line"]),
    (PLAIN + ["--objdump", "arm"], ["--objdump arm", "elf32-littlearm"]),
    (PLAIN + ["--words", "-"], ["standard input, line 1", "'what'"]),
    (PLAIN + ["--words", "missing"], ["missing", "No such file"]),
    (PLAIN + ["--words", "1025"], ["1025 words", "1024"]),
    (PLAIN + ["--words", "1025", "0E228020"], ["1026 words", "1024"]),
    (PLAIN + ["--vl", "128"], ["--vl is given 2 times"]),
    (PLAIN + ["--force"], ["--force"]),
    (PLAIN + ["--sel", "0,0,0,0"], ["--sel"]),
]

# The same, where ./spell refuses a text.
BAD_TEXTS = [
    (PLAIN + ["0E228020", TEXT_B, TEXT_B.replace("8h", "8 h")], ["word 3", "'smlal v0.8 h,", "refused 11"]),
    (PLAIN + [TEXT_D.replace("z1", "z2")], ["word 1", "{ z0.b-z2.b }"]),
    # Not the range from z0 to z3, which ./spell would take.
    (PLAIN + ["smlall za.s[w8, 0:3], { z0.b, z3.b }, { z4.b, z7.b }"], ["word 1", "{ z0.b, z3.b }", "refused 11"]),
    (PLAIN + [TEXT_D.replace("0:3", "0x0:0x13")], ["word 1", "0x0:0x13"]),
    (PLAIN + [f"{TEXT_B},"], ["word 1", "refused 11"]),
    (PLAIN + [f"{TEXT_B}\n{TEXT_B}"], ["word 1", "refused 11"]),
    (PLAIN + ["C1A2000G, 0E228020"], ["word 1", "'C1A2000G, 0E228020'", "refused 11"]),
]

# What is given, and what ./lamp prints of the list: its beginning, its end, and how many lines.
RUNS = [
    (GOOD["document 01's list"][0], "words 3\n1 C1A20008 1024 1024 100\n", "total 2048 2048 100\n", 5),
    (GOOD["VL 256, no features, no words"][0], "words 0\n", "total 0 0 0\n", 2),
    # Row P1 of document 01's bench table.
    (
        ["--vl", "128", "--features", "1", "--fill", "01", "0E228020"],
        "words 1\n1 0E228020 16 128 12\n",
        "total 16 128 12\n",
        3,
    ),
    # As the warnings say.
    (
        ["--vl", "128", "--features", "12", "--fill", "01", "C1A20008", "44BA3820"],
        "words 2\n1 C1A20008 refused 4\n2 44BA3820 refused 4\n",
        "total 0 0 0\n",
        4,
    ),
    # The README's, of files that stand in examples/.
    (
        ["--vl", "512", "--features", "advsimd,sve2", "--seed", "1"]
        + ["--words", os.path.join(ROOT, "examples/words.txt")],
        "words 6\n1 0E228020 242 512 47\n",
        "\n6 44F124E6 255 512 49\ntotal 1131 3072 36\n",
        8,
    ),
    (
        ["--vl", "256", "--features", "31", "--modes", "sm,za", "--seed", "1"]
        + ["--objdump", os.path.join(ROOT, "examples/kernel.objdump")],
        "words 4\n1 C1A20000 997 2048 48\n",
        "\n4 44BA2C09 109 256 42\ntotal 2198 4608 47\n",
        6,
    ),
    # The longest: VL 512, the greatest select registers, and 1,024 words, each of which no layout matches.
    (
        ["--vl", "512", "--features", "28", "--fill", "00", "--select", ",".join(["4294967295"] * 4)]
        + ["FFFFFFFF"] * 1024,
        "words 1024\n1 FFFFFFFF refused 3\n",
        "1024 FFFFFFFF refused 3\ntotal 0 0 0\n",
        1026,
    ),
]


def differs(case, fault):
    print(f"{case}: {fault}")
    sys.exit(1)


def shown(data):
    return data.hex(" ") if len(data) < 40 else f"{data[:16].hex(' ')} .. ({len(data)} bytes) .. {data[-20:].hex(' ')}"


# Its functions by their names; its `main` is not called yet.
SCRIPT = runpy.run_path(os.path.join(ROOT, "tools/mklist"))


def become_mklist(arguments, files, environment):
    """Makes of this process one that was called as mklist, and ends it."""
    status = 1
    try:
        for i, file in enumerate(files):
            os.dup2(file.fileno(), i)
        os.environ |= environment
        sys.argv = ["tools/mklist"] + arguments
        SCRIPT["main"]()
        status = 0
    except SystemExit as end:
        status = end.code or 0
    except BaseException:
        traceback.print_exc()
    finally:
        sys.stdout.flush()
        sys.stderr.flush()
        os._exit(status)


def mklist(arguments, given=b"", **environment):
    """What mklist answers, in a copy of this process: Python takes longer to start than mklist to run."""
    with tempfile.TemporaryFile() as stdin, tempfile.TemporaryFile() as stdout, tempfile.TemporaryFile() as stderr:
        stdin.write(given)
        stdin.seek(0)
        child = os.fork()
        if child == 0:
            become_mklist(arguments, (stdin, stdout, stderr), environment)
        status = os.waitstatus_to_exitcode(os.waitpid(child, 0)[1])
        for file in (stdout, stderr):
            file.seek(0)
        return SimpleNamespace(returncode=status, stdout=stdout.read(), stderr=stderr.read())


def check_good(case, arguments, given, due, said=""):
    done = mklist(arguments, given)
    if done.returncode != 0 or done.stderr.decode() != said:
        differs(case, f"ended with {done.returncode}, and said '{done.stderr.decode()}', and not '{said}'")
    if due is not None and done.stdout != due:
        differs(case, f"made\n  {shown(done.stdout)}\nand not\n  {shown(due)}")


def check_warned(case, given, fault):
    said = f"mklist: warning: --modes is not given, so that these will be refused: {fault}\n" if fault else ""
    arguments = ["--vl", "128", "--fill", "00", "--features"] + given
    check_good(f"without --modes: {case}", arguments, b"", None, said)
    if "12" in given:
        check_good(f"with --modes: {case}", arguments + ["--modes", "none"], b"", None)


def check_bad(arguments, said):
    case = " ".join(arguments)[:100]
    done = mklist(arguments + ["-o", "untouched"], b"what\n")
    fault = done.stderr.decode()
    if done.returncode != 2:
        differs(case, f"ended with {done.returncode} and not 2")
    if done.stdout != b"" or os.path.exists("untouched"):
        differs(case, "wrote something, where it refused")
    if not fault.startswith("mklist: ") or fault.count("\n") != 1 or not all(each in fault for each in said):
        differs(case, f"said '{fault}', and not all of {said}")


def check_files():
    """By its own first line, into a file; the stored example; and --help."""
    arguments, _, due = GOOD["document 01's list"]
    command = [os.path.join(ROOT, "tools/mklist")] + arguments + ["-o", "made"]
    done = subprocess.run(command, capture_output=True, check=False)
    if done.returncode != 0 or done.stdout + done.stderr != b"":
        differs("-o made", f"ended with {done.returncode}, and printed '{done.stdout + done.stderr}'")
    for path in ("made", os.path.join(ROOT, "examples/three.list")):
        with open(path, "rb") as file:
            if file.read() != due:
                differs(path, "is not document 01's list")
    if mklist(PLAIN + ["-o", "missing/made"]).returncode != 2:
        differs("-o missing/made", "did not end with 2")
    done = mklist(["--help"])
    lines = done.stdout.decode().splitlines()
    if done.returncode != 0 or not lines[0].startswith("usage: tools/mklist") or len(lines) > 40:
        differs("--help", "is not one screen that begins with the usage")


def check_published():
    due = b"".join(number.to_bytes(8, "little") for number in PUBLISHED)
    if splitmix(PUBLISHED_SEED, len(PUBLISHED)) != due:
        differs("splitmix", "does not give the published numbers")


def check_without_kit():
    """Where there is no `rt` on the path."""
    os.mkdir("path")
    for name in ("bash", "dirname"):
        os.symlink(shutil.which(name), f"path/{name}")
    for what, arguments in (("--objdump", ["--objdump", "gnu"]), ("a text", [TEXT_B])):
        done = mklist(PLAIN + arguments, PATH=os.path.abspath("path"))
        fault = done.stderr.decode()
        if done.returncode != 2 or done.stdout != b"" or f"mklist: {what} needs ./spell" not in fault:
            differs(f"{what} without the kit", f"ended with {done.returncode}, and said '{fault}'")


def check_too_many():
    """A disassembly with more words than a list has: it says first what it took, and then that it is too much."""
    done = mklist(PLAIN + ["--objdump", "many"])
    lines = done.stderr.decode().splitlines()
    if done.returncode != 2 or done.stdout != b"" or len(lines) != 2 or "there are 1025 words" not in lines[1]:
        differs("--objdump many", f"ended with {done.returncode}, and said {lines}")


def check_layouts():
    """That mklist warns for the words of C, D and E, by ./spell: of words, and of those one bit beside them."""
    words = [int(word, 16) ^ flip for word in OF_FAMILIES for flip in [0] + [1 << i for i in range(32)]]
    words = [f"{word:08X}" for word in words]
    given = "\n".join(words).encode()
    spell = os.path.join(ROOT, "spell")
    texts = subprocess.run([spell], input=given, capture_output=True, check=False).stdout.decode().splitlines()
    c = sum(text.startswith("sqdml") for text in texts)
    d_and_e = sum(" za." in text for text in texts)
    due = f"{d_and_e} words that need sm and za, {c} words that need sm or the feature sve2"
    check_warned("words one bit beside words", ["12"] + words, due)


def check_run(arguments, begins, ends, lines):
    case = " ".join(arguments)[:100]
    made = mklist(arguments)
    done = subprocess.run([os.path.join(ROOT, "lamp")], input=made.stdout, capture_output=True, check=False)
    text = done.stdout.decode()
    if done.returncode != 0 or not text.startswith(begins) or not text.endswith(ends) or text.count("\n") != lines:
        differs(case, f"./lamp ended with {done.returncode}, and printed of the list\n{text[:200]}")


def cases_of(has_kit):
    """Each check with its arguments."""
    good = GOOD | (GOOD_TEXTS if has_kit else {})
    cases = [(check_good, case, *each) for case, each in good.items()]
    cases += [(check_warned, case, *each) for case, each in WARNED.items()]
    cases += [(check_bad, *each) for each in BAD + (BAD_TEXTS if has_kit else [])]
    cases += [(check_files,), (check_published,), (check_without_kit,)]
    if has_kit:
        cases += [
            (check_good, case, PLAIN + arguments, given, due, f"mklist: {said}\n")
            for case, (arguments, given, due, said) in DISASSEMBLED.items()
        ]
        cases += [(check_run, *each) for each in RUNS] + [(check_too_many,), (check_layouts,)]
    return cases


def main():
    start = time.monotonic()
    for name, contents in FILES.items():
        with open(name, "wb") as file:
            file.write(contents)
    has_kit = shutil.which("rt") is not None
    if has_kit:
        # What is said where a program has to be proved first does not come from mklist.
        for program in ("lamp", "spell"):
            subprocess.run([os.path.join(ROOT, program), "--where"], stdout=subprocess.DEVNULL, check=True)
    cases = cases_of(has_kit)
    for check, *arguments in cases:
        check(*arguments)
    if not has_kit:
        print("no Rattle kit: mklist is given no text and no disassembly, and no list that it made is given to ./lamp")
    checks = [case[0] for case in cases]
    lists, warnings = checks.count(check_good), checks.count(check_warned)
    faults, runs = checks.count(check_bad), checks.count(check_run)
    print(
        f"mklist: {lists} lists as due, {warnings} with a warning or rightly without, {faults} faults refused,",
        f"{runs} lists run by ./lamp ({round(time.monotonic() - start)} s)",
    )


if __name__ == "__main__":
    with tempfile.TemporaryDirectory() as room:
        os.chdir(room)
        try:
            main()
        finally:
            os.chdir("/")
