"""The npm package: the page's module and the JavaScript that reads its trees."""

import re

from bindings.shared import SITE, TOP, WEB, version

from .about import licences
from .archives import File, packed, read, tar, under

NPM = TOP / "bindings/npm"
OWN = ["package.json", "README.md", "browser.js", "calls.js", "index.d.ts", "node.js", "source.js"]
READER = ["kinds.js", "memory.js", "parser.js", "rows.js", "tree.js"]


def kinds():
    """The type of the names of kinds."""
    names = re.findall(r'^  ("\w+"),$', (WEB / "kinds.js").read_text(), re.MULTILINE)
    lines = "".join(f"\n  | {name}" for name in names)
    return f"// The name of a kind of element.\nexport type Kind ={lines};\n"


def npm():
    """For node and browsers, as npm packs it."""
    files = {name: read(NPM / name) for name in OWN} | {name: read(WEB / name) for name in READER}
    files |= licences() | {"CHANGELOG.md": read(TOP / "CHANGELOG.md")}
    files |= {
        "kinds.d.ts": File(kinds().encode()),
        "dumyroke.wasm": read(SITE / "dumyroke.wasm", made_by="./do bindings pages"),
    }
    return f"dumyroke-{version()}.tgz", packed(tar(under("package", files), has_folders=False))
