"""The page that counts by itself: the proved program as a module for browsers, with all that it needs in one file.

`predator view --page-app F` writes it, and `--html F --live` puts it into a page with the trace that this shows. It is made of the files
of anywhere/ and of the module that lies there or in dist/. docs/ANYWHERE.md describes it."""

import base64
import gzip
import hashlib
import html
import os
import re

from view.faults import Fault
from view.reading.calls import Call

TOP = os.path.dirname(os.path.dirname(os.path.dirname(os.path.abspath(__file__))))
ANYWHERE = os.path.join(TOP, "anywhere")
MODULE_PLACES = (
    os.path.join(ANYWHERE, "predator.wasm.gz"),
    os.path.join(TOP, "dist", "predator.wasm.gz"),
)
WORKER_FILES = ("module.mjs", "worker.mjs")
PAGE_FILES = ("module.mjs", "texts.mjs", "page.mjs")
MAX_EMBEDDED_BYTES = 20 << 20
# What the page may do: run its own script, the worker and the module. Nothing goes over the network.
SCRIPT_POLICY = "script-src 'sha256-{script}' 'wasm-unsafe-eval' blob:; worker-src blob:"
POLICY = (
    f"default-src 'none'; {SCRIPT_POLICY}; "
    "style-src 'sha256-{style}'; base-uri 'none'; form-action 'none'"
)
# What a page of view may do, in view/output/templates/page.html.
PAGE_POLICY = "default-src 'none'; style-src 'unsafe-inline'"


def read_part(name: str) -> str:
    try:
        with open(os.path.join(ANYWHERE, name), encoding="utf-8") as file:
            return file.read()
    except OSError as error:
        raise Fault(f"{error.filename}: {error.strerror}", 127) from error


def read_module() -> bytes:
    """The compressed module."""
    for path in (os.environ.get("PREDATOR_MODULE"), *MODULE_PLACES):
        if path and os.path.exists(path):
            with open(path, "rb") as file:
                content = file.read()
            return content if path.endswith(".gz") else gzip.compress(content, 9, mtime=0)
    raise Fault("can't find predator.wasm.gz in anywhere/ or dist/: set PREDATOR_MODULE", 127)


def join_scripts(names: tuple[str, ...]) -> str:
    """Modules as one script: what each exports and imports is there for all."""
    texts = [read_part(name) for name in names]
    joined = "\n".join(
        re.sub(r"(?m)^export ", "", re.sub(r"(?m)^import [^;]*;\n", "", text)) for text in texts
    )
    if "</script" in joined:
        raise Fault("a script of anywhere/ has `</script`, which would end it")
    return joined


def digest(text: str) -> str:
    """What a policy calls a script or a style that may be used."""
    return base64.b64encode(hashlib.sha256(text.encode()).digest()).decode("ascii")


def page_script() -> str:
    return f'"use strict";\n{join_scripts(PAGE_FILES)}'


def app_page(trace: bytes = b"", name: str = "") -> str:
    """The page, with a trace that it counts at once, if one is given."""
    script, style = page_script(), read_part("page.css")
    values = {
        "policy": POLICY.format(script=digest(script), style=digest(style)),
        "style": style,
        "module": base64.b64encode(read_module()).decode("ascii"),
        "trace_name": html.escape(name),
        "trace": base64.b64encode(gzip.compress(trace, 9, mtime=0)).decode("ascii")
        if trace
        else "",
        "worker": f'"use strict";\n{join_scripts(WORKER_FILES)}',
        "script": script,
    }
    # (in one pass: what is put in may look like a place)
    return re.sub(r"\{\{(\w+)\}\}", lambda place: values[place[1]], read_part("page.html"))


def read_trace(path: str) -> bytes:
    """A trace that goes into a page."""
    try:
        size = os.path.getsize(path)
        if size > MAX_EMBEDDED_BYTES:
            raise Fault(
                f"{path} has {size:,} bytes, and `--live` puts a trace of at most {MAX_EMBEDDED_BYTES:,} into the page"
            )
        with open(path, "rb") as file:
            return file.read()
    except OSError as error:
        raise Fault(f"{path}: {error.strerror}") from error


def add_app(page: str, call: Call) -> str:
    """A page of a call's trace, with the page that counts it again at its end."""
    trace = call.trace_file()
    if trace is None:
        raise Fault("'--live' needs a trace: that of a replay, or of `--trace F`")
    app = app_page(read_trace(trace), os.path.basename(call.named))
    frame = (
        "<h2>Other layouts</h2>\n<p>This page contains the trace. Change a setting, and the verified program counts"
        " it again in the browser.</p>\n"
        f'<iframe title="Other layouts" style="width:100%;height:60rem;border:1px solid #c9c9c9" srcdoc="{html.escape(app)}"></iframe>\n'
    )
    # (the page in the frame is held to the policy of this one too)
    policy = f"{PAGE_POLICY}; {SCRIPT_POLICY.format(script=digest(page_script()))}"
    if f'content="{PAGE_POLICY}"' not in page:
        raise Fault("the page has another policy than `--live` knows", 127)
    page = page.replace(f'content="{PAGE_POLICY}"', f'content="{policy}"')
    return page.replace("</body>", f"{frame}</body>")


def write_app(words: list[str]) -> int:
    """`predator view --page-app F`."""
    if len(words) != 1 or words[0].startswith("--"):
        raise Fault("'--page-app' takes one name: that of the page to write", 1)
    text = app_page()
    try:
        with open(words[0], "w", encoding="utf-8") as file:
            file.write(text)
    except OSError as error:
        raise Fault(f"{words[0]}: {error.strerror}") from error
    return 0
