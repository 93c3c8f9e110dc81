#!/usr/bin/env python3
"""Tests gqlls in Helix 25 in a terminal of tmux, on a folder with a schema and a query: helix.py PROGRAM. Helix is set
up by the words of docs/EDITORS.md, and gets the keys that a user presses. What is on the screen after them is what the
texts say."""
import os
import re
import shutil
import subprocess
import sys
import tempfile
import time
from pathlib import Path

TOP = Path(__file__).resolve().parent.parent.parent
# The keys that have a name.
NAMED = {"Enter", "Escape", "Space", "Tab", "C-u"}
tests = failed = 0


class Helix:
    """Helix in a terminal, with a server of tmux of its own."""

    def __init__(self, folder):
        self.tmux = ["tmux", "-u", "-f", "/dev/null", "-S", str(folder / "tmux")]
        self.run(
            "new-session", "-d", "-x", "140", "-y", "30", "-c", str(folder), "hx", "query.graphql", "schema.graphql"
        )

    def run(self, *words):
        return subprocess.run([*self.tmux, *words], check=True, capture_output=True, text=True).stdout

    def press(self, *keys):
        """Presses keys by tmux's names, and types what has no such name, at the speed of a fast typist: Helix drops
        completions that keys overtake. Escape with a key behind it at once is another key to Helix."""
        for key in keys:
            for each in [key] if key in NAMED or len(key) == 1 else key:
                self.run("send-keys", *(["-l"] if len(each) == 1 else []), each)
                time.sleep(0.2 if each == "Escape" else 0.05)

    def expect(self, what, *texts):
        """All these texts are on the screen, within ten seconds. Columns of blanks count as one."""
        global tests, failed
        tests += 1
        end = time.monotonic() + 10
        while not all(text in re.sub(" +", " ", screen := self.run("capture-pane", "-p")) for text in texts):
            if time.monotonic() > end:
                failed += 1
                print(f"helix: {what}: {texts} are not all on this screen:\n{screen.rstrip()}")
                return
            time.sleep(0.05)


def set_up(folder):
    """A folder with the documents, the settings of the page, and the program on the PATH."""
    shutil.copytree(TOP / "tests/editors/data", folder, dirs_exist_ok=True)
    settings = folder / "settings/helix/languages.toml"
    settings.parent.mkdir(parents=True)
    settings.write_text(re.search("```toml\n(.*?)```", (TOP / "docs/EDITORS.md").read_text(), re.S)[1])
    shutil.copy(sys.argv[1], folder / "gqlls")
    os.environ.update(
        XDG_CONFIG_HOME=str(folder / "settings"),
        XDG_CACHE_HOME=str(folder / "cache"),
        PATH=f"{folder}:{os.environ['PATH']}",
    )


def test(helix):
    # Helix starts the server while it shows the text, and only then opens the documents: an error says that it has.
    helix.expect("the query", "query Find")
    helix.press("O", "!")
    helix.expect("an error", "expected a definition")
    helix.press("Escape", "u", "j", "3", "l", "g", "d")
    helix.expect("the definition of pet", "NOR schema.graphql", "1 sel 4:3")
    helix.press("g", "r")
    helix.expect("the references of pet", "2/2", "query.graphql:2", "schema.graphql:4")
    helix.press("Escape", "Space", "k")
    helix.expect("hover on pet", "6 pet(id: ID!): Pet", "8 One pet.")
    helix.press("Escape", "Space", "s")
    helix.expect("the outline", "5/5", "class Query", "field pet", "property id")
    helix.press("Escape", "Space", "S", "Fin")
    helix.expect("a definition of the folder", "function Find query.graphql")
    helix.press("Enter")
    helix.expect("it is opened", "1 sel 1:7")
    helix.press("4", "g", "g", "1", "0", "l", "Space", "r", "C-u", "some", "Enter")
    helix.expect("the fragment renamed", "{ ...some }", "fragment some on Pet")
    helix.press(":format", "Enter")
    helix.expect("the layout", "3 ...some", "7 name")
    helix.press("g", "e", "o", "query Q($i")
    helix.press("d: ID!) { pe")
    helix.expect("a field offered", "pet field")
    helix.press("t(")
    helix.expect("the argument offered, and the signature", "pet(id: ID!): Pet", "id property")
    helix.press("id: $")
    helix.expect("the variable offered", "id variable")
    helix.press("Tab")
    helix.expect("the variable taken", "{ pet(id: $id)")


with tempfile.TemporaryDirectory() as name:
    set_up(Path(name))
    editor = Helix(Path(name))
    try:
        test(editor)
    finally:
        subprocess.run([*editor.tmux, "kill-server"])
print(f"helix: {tests} tests, {failed} differences")
sys.exit(failed != 0)
