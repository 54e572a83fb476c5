"""Small programs of C and C++ without symbols, built in several ways, and the landmark of each function."""

import os
import subprocess
import sys
import tempfile
import unittest

TOP = os.path.join(os.path.dirname(os.path.abspath(__file__)), "..", "..")
sys.path.insert(0, TOP)

from elftools.elf.elffile import ELFFile  # noqa: E402


# (what is called and what refers to something is never inlined but where that is wanted, and stands in this order)
SOURCE = r"""
#include <assert.h>
#include <stdio.h>
#define FUNCTION __attribute__((noinline, noclone))
#define TAKES(it) __asm__ volatile("incl %0" : "+m"(*it))
#define MANY(it) TAKES(it); TAKES(it); TAKES(it); TAKES(it); TAKES(it); TAKES(it); TAKES(it); TAKES(it); TAKES(it); TAKES(it); TAKES(it)
int sums[64];
extern "C" void in_word(int *it);
void (*volatile kept)(int *), (*handed)(int *) = in_word;
const char *volatile said;
char writable[] = "a text that is written";
const char tail[] = "before: the tail of a text";
extern "C" {
FUNCTION void jumped_to(int *it) { TAKES(it); }
FUNCTION void say(const char *it) { said = it; }
FUNCTION void low(int *it) { TAKES(it); }
FUNCTION void middle(int *it) { low(it); TAKES(it); }
FUNCTION void low_of_two(int *it) { TAKES(it); }
FUNCTION void low_of_three(int *it) { TAKES(it); }
FUNCTION void taken(int *it) { TAKES(it); }
FUNCTION void in_word(int *it) { TAKES(it); }
FUNCTION void passed(int *it) { taken(it); in_word(it); TAKES(it); }
FUNCTION void deep1(int *it) { TAKES(it); }
FUNCTION void deep2(int *it) { deep1(it); TAKES(it); }
FUNCTION void deep3(int *it) { deep2(it); TAKES(it); }
FUNCTION void deep4(int *it) { deep3(it); TAKES(it); }
FUNCTION void deep5(int *it) { deep4(it); TAKES(it); }
FUNCTION void half_known(int *it) { TAKES(it); }
FUNCTION void below_header(int *it) { TAKES(it); }
FUNCTION void never_called(int *it) { half_known(it); TAKES(it); }
#line 4 "/usr/include/own.h"
FUNCTION void of_header(int *it) { TAKES(it); assert(it != nullptr); below_header(it); TAKES(it); }
FUNCTION int plain(int *it) { TAKES(it); return it[1]; }
#line 12 "/build/lists-1.0/src/list.c"
FUNCTION void asserts(int *it, int n) { TAKES(it); assert(n < 60); low_of_two(it); low_of_three(it); passed(it); jumped_to(it + n); }
#line 20 "src/list.c"
FUNCTION void asserts_twice(int *it, int n) {
    TAKES(it);
    assert(n < 50);
    MANY(it); MANY(it); MANY(it); MANY(it);
    assert(n < 40);
    TAKES(it);
}
#line 4 "src/list.h"
static inline __attribute__((always_inline)) void check(int n) { assert(n < 30); }
#line 40 "src/list.c"
FUNCTION void says(int *it) {
    TAKES(it); say("the list is broken"); middle(it); low_of_two(it); low_of_three(it); deep5(it); half_known(it), of_header(it);
}
/* (what calls it has a text as well) */
FUNCTION void says_both(int *it) { say("the short one"); TAKES(it); say("the longer one of these"); say("one of these"); }
FUNCTION void unused(int *it) { TAKES(it); }
FUNCTION void says_two(int *it) {
    say("a much longer text of two functions"); TAKES(it); say("only here\n"); low_of_three(it); says_both(it); TAKES(it);
}
FUNCTION void says_other(int *it, int n) { say("a much longer text of two functions"); TAKES(it); check(n); }
FUNCTION void says_checked(int *it, int n) { say(": checked twice"); TAKES(it); check(n); }
FUNCTION void checks_alone(int *it, int n) { TAKES(it); check(n); }
FUNCTION void says_nothing(int *it) {
    say("%d"); say("0123456789abcdef"); say("vector::_M_realloc_insert"); say(writable); say(tail + 8); say("out of memory\n");
    say("caf\xe9 cr\xe8me br\xfbl\xe9" "e and more"); say("12345 6789 01"); TAKES(it);
}
}
namespace lists {
template <class T> struct Map { FUNCTION T insert(T *it, int n); };
#line 123 "../common/map.h"
template <class T> FUNCTION T Map<T>::insert(T *it, int n) { TAKES(sums); assert(it != nullptr && n < 9); return it[n]; }
struct Root {
    virtual ~Root() {}
    FUNCTION virtual void stay(int *it);
    FUNCTION virtual void work(int *it);
};
void Root::stay(int *it) { TAKES(it); }
void Root::work(int *it) { TAKES(it); }
struct Left : Root { FUNCTION void work(int *it) override; };
void Left::work(int *it) { TAKES(it); low_of_two(it); }
struct Other { FUNCTION virtual void other(int *it); };
void Other::other(int *it) { TAKES(it); }
struct Both : Left, Other { FUNCTION void other(int *it) override; };
void Both::other(int *it) { TAKES(it); TAKES(it); }
struct Whole { virtual ~Whole() {} virtual void area(int *it) = 0; FUNCTION virtual void side(int *it); };
void Whole::side(int *it) { TAKES(it); }
struct Square : Whole { FUNCTION void area(int *it) override; };
void Square::area(int *it) { TAKES(it); }
template <class F> struct Task : Other { F f; explicit Task(F f) : f(f) {} FUNCTION void other(int *it) override { f(it); } };
template <class T> FUNCTION Other *start(T n) { return new Task([n](int *it) { TAKES(it); it[n]++; }); }
}
#line 70 "src/list.c"
int main(int argc, char **) {
    kept = taken;
    asserts(sums, argc), asserts_twice(sums, argc), says(sums), says_two(sums), says_other(sums, argc), says_checked(sums, argc);
    says_nothing(sums), checks_alone(sums, argc);
    lists::Both both;
    lists::Square square;
    lists::Root *volatile base = &both;
    lists::Whole *volatile shape = &square;
    base->stay(sums), base->work(sums), shape->area(sums), shape->side(sums), lists::start(argc)->other(sums);
    long one = 1;
    return plain(sums) + lists::Map<long>().insert(&one, 0) & 1;
}
"""


# How programs are built: as one that is moved when it is loaded, the same with packed relocations, and with calls that are checked, as one
# with a fixed place, with calls through words, and without the table for unwinding.
CODE = [
    "-O1",
    "-w",
    "-fno-reorder-blocks-and-partition",
    "-fno-toplevel-reorder",
    "-foptimize-sibling-calls",
    "-falign-functions=16",
]


WAYS = {
    "pie": ["-fPIE", "-pie", "-fcf-protection=none"],
    "packed": ["-fPIE", "-pie", "-Wl,-z,pack-relative-relocs"],
    "checked": ["-fPIE", "-pie", "-fcf-protection=full", "-Wl,-z,ibtplt"],
    "fixed": ["-fno-pie", "-no-pie"],
    "through": ["-fPIE", "-pie", "-fno-plt", "-Wl,-z,now"],
    "mixed": ["-fPIE", "-pie", "-Wl,-z,noseparate-code"],
    "bare": [
        "-fPIE",
        "-pie",
        "-fno-asynchronous-unwind-tables",
        "-fno-unwind-tables",
        "-fno-exceptions",
    ],
}


FIXED = ("fixed",)


def functions(path):
    """Where each function of a program begins and ends."""
    with open(path, "rb") as file:
        symbols = ELFFile(file).get_section_by_name(".symtab").iter_symbols()
        return {
            symbol.name: (symbol["st_value"], symbol["st_value"] + symbol["st_size"])
            for symbol in symbols
            if symbol["st_size"]
        }


class Built(unittest.TestCase):
    def setUp(self):
        folder = tempfile.TemporaryDirectory()
        self.addCleanup(folder.cleanup)
        self.folder = folder.name

    def built(self, source, *words, language="c++", strip=True):
        """The program without symbols, and where its functions are."""
        path = os.path.join(self.folder, "whole")
        command = [
            "gcc",
            *words,
            "-x",
            language,
            "-",
            "-o",
            path,
            *(["-lstdc++"] if language == "c++" else []),
        ]
        if subprocess.run(
            command, input=source.encode("latin-1"), stderr=subprocess.DEVNULL
        ).returncode:
            self.skipTest(f"gcc can't build this here: {words}")
        subprocess.run(["strip", "-o", path + ".bare", path], check=True)
        return path + ".bare", functions(path)


def wanted(way):
    """The landmark at the beginning of each function."""
    two = (
        "called near an assertion at src/list.c:12 in asserts and in a method of lists::Left and 1 more",
    )
    three = (
        'called near an assertion at src/list.c:12 in asserts and near the text "only here" and 1 more',
    )
    called = {
        "low": 'called near the text "the list is broken"',
        "middle": 'called near the text "the list is broken"',
        "low_of_two": two[0],
        "low_of_three": three[0],
        "passed": "called near an assertion at src/list.c:12 in asserts",
        "below_header": 'called near the text "the list is broken"',
        "half_known": 'called near the text "the list is broken" and 1 more',
        "jumped_to": "called near an assertion at src/list.c:12 in asserts",
        "deep2": 'called near the text "the list is broken"',
    }
    return {
        **{name: None if way in FIXED else text for name, text in called.items()},
        **dict.fromkeys(
            ("taken", "in_word", "deep1", "never_called", "plain", "unused", "says_nothing", "main")
        ),
        "of_header": "near an assertion at /usr/include/own.h:4 in of_header"
        if way in FIXED
        else called["low"],
        "says_both": 'near the text "the longer one of these"',
        "asserts": "near an assertion at src/list.c:12 in asserts",
        "asserts_twice": "near an assertion at src/list.c:22 in asserts_twice",
        "says": 'near the text "the list is broken"',
        "says_two": 'near the text "only here"',
        "says_other": 'near the text "a much longer text of two functions"',
        "says_checked": 'near the text "checked twice"',
        "checks_alone": "near an assertion at src/list.h:4 in check",
        "_ZN5lists3MapIlE6insertEPli": "near an assertion at common/map.h:123 in lists::Map<long int>::insert",
        "_ZN5lists4Root4stayEPi": "in a method of lists::Root",
        "_ZN5lists4Root4workEPi": "in a method of lists::Root",
        "_ZN5lists4Left4workEPi": "in a method of lists::Left",
        "_ZN5lists4Both5otherEPi": "in a method of lists::Both",
        "_ZN5lists5Whole4sideEPi": "in a method of lists::Whole",
        "_ZN5lists6Square4areaEPi": "in a method of lists::Square",
        "_ZN5lists4TaskIZNS_5startIiEEPNS_5OtherET_EUlPiE_E5otherES5_": "in a method of Task<lambda in lists::start<int>>",
    }


if __name__ == "__main__":
    unittest.main()
