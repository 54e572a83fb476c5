"""Lines of words that are refused, written by hand, each with what is to be said of it. messages.py makes
others from commands.toml."""

LAYOUT = "--size must be a power of two from 4 to 1024, --shift a multiple of 4 below the size"
OUTPUT = "is named twice: an output file must differ from all other files"
WORDS = (
    ("reply t", "'reply' is not a command: see predator --help"),
    ("run p --fast=1", "unexpected argument '--fast' found"),
    ("run p -x", "unexpected argument '-x' found"),
    ("run p --trace a --trace=b", "the argument '--trace <trace>' cannot be used multiple times"),
    ("run p --trace --output o", "a value is required for '--trace <trace>' but none was supplied"),
    ("run p --trace t --pcs --pcs", "the argument '--pcs' cannot be used multiple times"),
    ("run p --pcs --output o", "--pcs needs --trace"),
    ("check p q", "unexpected argument 'q' found"),
    ("gen 3 f g", "unexpected argument 'g' found"),
    ("split t 4 a b c", "unexpected argument 'c' found"),
    ("check -- -p --settings", "unexpected argument '--settings' found"),
    ("replay --size 64", "the following required arguments were not provided: <trace>"),
    ("run --trace t", "the following required arguments were not provided: <program>"),
    ("split t 4 a", "the following required arguments were not provided: <second>"),
    ("gen 03 f", "'03' has a leading zero: N must be a whole number up to 1000000000"),
    ("gen 1000000001 f", "'1000000001' is not a count: N must be a whole number up to 1000000000"),
    (
        "split -- t 04 a b",
        "'04' has a leading zero: K must be a whole number up to 18446744073709551615",
    ),
    ("split t x a b", "'x' is not a position: K must be a whole number up to 18446744073709551615"),
    ("split t 4 a t", f"'t' {OUTPUT}"),
    ("convert t t", f"'t' {OUTPUT}"),
    ("move t m m", f"'m' {OUTPUT}"),
    (
        "explain p 2 64 0",
        (
            "'2 64 0' is not a line and a start: BASE must be a multiple of 4 below 2^32, "
            "SIZE a power of two from 4 to 1024, START a number below 2^40"
        ),
    ),
    ("replay t --size 48", f"'--size 48 --shift 0' is not a layout: {LAYOUT}"),
    ("replay t --size 48 --save t", f"'--size 48 --shift 0' is not a layout: {LAYOUT}"),
    (
        "filter t f --near 100",
        "'--near 100' is not a region size: it must be a power of two from 64 to 65536",
    ),
    ("filter t t", f"'t' {OUTPUT}"),
    ("sweep t --size -1", "unexpected argument '-1' found: numbers cannot be negative"),
    ("sweep t --size=-1", "'--size -1' is negative: it must be a power of two from 4 to 256"),
    ("misses t --shift 04", f"'04' has a leading zero: {LAYOUT}"),
    ("blame t --size 48 --shift 16", f"'--size 48 --shift 16' is not a layout: {LAYOUT}"),
    ("run p --set quantum", "'quantum' in --set is not KEY=N"),
    ("run p --set quantum=1,turns=1", "'turns=1' in --set names an unknown key"),
    (
        "check p --set quantum=01",
        (
            "'quantum=01' in --set needs a whole number below 2^64, in decimal digits "
            "without leading zeros"
        ),
    ),
    ("explain p 0 64 0 --set harts=1,harts=2", "'harts=2' in --set repeats a key"),
    ("replay t --set ,", "'' in --set is not KEY=N"),
    (
        "caches t --size 64 --sets 3 --ways 8",
        (
            "'--size 64 --sets 3 --ways 8' is not a cache shape: --size must be a power of "
            "two from 4 to 1024, --sets one from 1 to 1024, --ways from 1 to 64, and sets "
            "times ways at most 4096"
        ),
    ),
    (
        "place t x --size 48",
        "'--size 48' is not a line size: it must be a power of two from 4 to 1024",
    ),
    ("run p --trace p", f"'p' {OUTPUT}"),
    ("run p --trace o --output o", f"'o' {OUTPUT}"),
    ("replay t --save t", f"'t' {OUTPUT}"),
    ("replay t --size 64 --save s --resume s", f"'s' {OUTPUT}"),
)
