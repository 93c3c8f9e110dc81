// The tests of the page in a headless Chromium: node page_test.mjs SITE [PICTURES]. SITE is a folder with the page and
// the module. With PICTURES, a folder, pictures of the page are put there.
import assert from "node:assert/strict";
import { Chromium, serve } from "./chromium.mjs";

const [site, pictures] = process.argv.slice(2);
const CONTROL = 2;

const { address } = await serve(site);
const page = await Chromium.start();
const quote = JSON.stringify;

// A fresh page that shows a text, once it is parsed.
async function show(text, words = "") {
  await page.open(`${address}index.html${words}#${encodeURIComponent(text)}`);
  await settled();
}

const settled = () => page.until("document.getElementById('verdict').dataset.state !== 'loading'");
const summary = () => page.evaluate("document.getElementById('summary').textContent");
const says = (part) => page.until(`document.getElementById('summary').textContent.includes(${quote(part)})`);
const text = () => page.evaluate("document.getElementById('text').value");
const selection = () =>
  page.evaluate("[document.getElementById('text').selectionStart, document.getElementById('text').selectionEnd]");
const errors = () => page.evaluate("[...document.querySelectorAll('#errors button')].map((it) => it.textContent)");
const figures = () => page.evaluate("[...document.querySelectorAll('#figures li')].map((it) => it.textContent)");
const underlined = () =>
  page.evaluate("[...document.querySelectorAll('.underlines span')].map((it) => it.textContent)");
const rows = () => page.evaluate(
  "[...document.querySelectorAll('.row')]" +
    ".map((it) => [+it.ariaLevel, ...[...it.children].map((part) => part.textContent)])"
);
const chosen = () => page.evaluate("document.querySelector('.row[aria-selected=true] .kind')?.textContent ?? null");
const place = (selector) =>
  page.evaluate(`(({ x, y, width, height }) => ({ x: x + width / 2, y: y + height / 2 }))(document.querySelector(${
    quote(selector)}).getBoundingClientRect())`);
const row = (number) => place(`.row:nth-child(${number})`);
const focus = (id) => page.evaluate(`document.getElementById(${quote(id)}).focus()`);

async function put(cursor) {
  await page.evaluate(`document.getElementById('text').setSelectionRange(${cursor}, ${cursor})`);
  await focus("text");
}

async function setField(id, value) {
  await page.evaluate(`(it => { it.value = ${
    quote(value
    )}; it.dispatchEvent(new Event("input")); it.dispatchEvent(new Event("change")); })(document.getElementById(${
    quote(id)}))`);
}

const tests = {
  // what docs/BINDINGS.md shows of this text
  async "errors are listed with line and column, and underlined"() {
    await show("{ hero(id) { name }");
    assert.deepEqual(await errors(), ["1:10 expected COLON, got )", "1:20 expected R_CURLY, got EOF"]);
    assert.deepEqual(await underlined(), [")", ""]);
    assert.equal(await summary(), "2 errors");
  },

  async "an error's message is shown while the pointer is over it"() {
    await show("{ hero(id) { name }");
    const { x, y } = await place(".underlines span");
    await page.move(x, y);
    await page.until("!document.querySelector('.hint').hidden");
    assert.equal(await page.evaluate("document.querySelector('.hint').textContent"), "expected COLON, got )");
    await page.move(x + 300, y + 100);
    await page.until("document.querySelector('.hint').hidden");
  },

  async "a click on an error selects its text"() {
    await show("{ hero(id) { name }");
    const { x, y } = await place("#errors button");
    await page.click(x, y);
    assert.deepEqual(await selection(), [9, 10]);
    assert.equal(await page.evaluate("document.activeElement.id"), "text");
  },

  // Counted by hand. The words are those of gqlcheck.
  async "each operation has its figures"() {
    await show("{ a a }\nquery Q { b: a @d { b ...F } } fragment F on T { c d }");
    await page.until("document.querySelectorAll('#figures button').length === 2");
    assert.deepEqual(await figures(), [
      "1:1 anonymous operation: depth 1, fields 2, root fields 2, aliases 0, directives 0, height 1, " +
        "distinct root fields 1",
      "2:1 Q: depth 2, fields 4, root fields 1, aliases 1, directives 1",
    ]);
    const { x, y } = await place("#figures li:nth-child(2) button");
    await page.click(x, y);
    assert.deepEqual(await selection(), [8, 38]);
    await put(0);
    await page.type("}");
    await says("1 error");
    assert.deepEqual(await figures(), []);
  },

  async "operations without figures say why"() {
    await show("{ ...F } fragment F on T { ...F }");
    await page.until("document.querySelector('#figures button') !== null");
    assert.deepEqual(
      [await summary(), await figures()], ["A GraphQL document", ["1:28 No figures: a cycle of fragments"]]
    );
  },

  // what README shows of this text
  async "the tree has kinds, texts and ranges"() {
    await show("scalar");
    assert.deepEqual(await rows(), [
      [1, "DOCUMENT", "", "0..6"], [2, "SCALAR_TYPE_DEFINITION", "", "0..6"], [3, "scalar_KW", '"scalar"', "0..6"]
    ]);
  },

  async "white space and commas are shown on demand"() {
    await show("{a,b }");
    const kinds = async () => (await rows()).map(([, kind]) => kind);
    assert.ok(!(await kinds()).some((kind) => ["COMMA", "WHITESPACE"].includes(kind)));
    const { x, y } = await place("#quiet");
    await page.click(x, y);
    assert.deepEqual((await kinds()).filter((kind) => ["COMMA", "WHITESPACE"].includes(kind)), ["COMMA", "WHITESPACE"]);
  },

  async "places after characters of several bytes are right"() {
    await show('{ a(b: "é𝄞") { c( } }');
    const [string] = (await rows()).filter(([, kind]) => kind === "STRING");
    assert.deepEqual(string.slice(2), ['"\\"é𝄞\\""', "7..12"]);
    assert.equal((await underlined())[0], "}");
    assert.deepEqual(await errors(), ["1:19 expected an Argument", "1:19 expected R_PAREN, got }"]);
  },

  // U+202E shows what follows it from right to left, and U+2066 begins a part of its own
  async "characters that turn others round are seen, and turn nothing"() {
    const turned = '{ a(x: "\u202e} @skip(if: true) { \u2066b") é \u202e}';
    await show(turned);
    assert.deepEqual(
      (await rows()).filter(([, kind]) => kind === "STRING").map(([, , shown]) => shown),
      ['"\\"\\u{202e}} @skip(if: true) { \\u{2066}b\\""']
    );
    assert.ok(
      (await errors()).every((message) => !/[\u202e\u2066]/.test(message)) &&
      (await errors()).some((message) => message.includes("\\u{202e}"))
    );
    const ends = await page.evaluate(`[...document.querySelector(".words").childNodes].flatMap((node) => {
      const walk = document.createTreeWalker(node, NodeFilter.SHOW_TEXT);
      const found = [];
      for (let at = node.nodeType === 3 ? node : walk.nextNode(); at; at = node.nodeType === 3 ? null : walk.nextNode())
        for (let i = 0; i < at.data.length; i++) {
          const range = new Range();
          range.setStart(at, i);
          range.setEnd(at, i + 1);
          if (at.data[i] !== "\\n") found.push(range.getBoundingClientRect().right);
        }
      return found;
    })`);
    assert.equal(ends.length, turned.length - 3);
    assert.ok(ends.every((end, i) => i === 0 || end > ends[i - 1]), `${ends}`);
    assert.equal(await page.evaluate("document.querySelectorAll('.words .turning').length"), 3);
    assert.equal(await text(), turned);
  },

  async "a click on an element selects its text, and the cursor's place selects an element"() {
    await show("{ hero { name } }");
    const { x, y } = await place("#tree .row.STRING, #tree .row:nth-child(5)");
    await page.click(x, y);
    const [, kind, , range] = (await rows())[4];
    assert.equal(await chosen(), kind);
    assert.deepEqual(await selection(), range.split("..").map(Number));
    await put(10);
    await page.until("document.querySelector('.row[aria-selected=true] .text')?.textContent === '\"name\"'");
    assert.equal(await page.evaluate("document.querySelector('.layers .chosen span').textContent"), "name");
  },

  async "the tree is used by keys"() {
    await show("{ a }");
    await focus("tree");
    for (const key of ["ArrowDown", "ArrowDown"]) await page.press(key);
    assert.equal(await chosen(), "SELECTION_SET");
    await page.press("ArrowLeft");
    assert.equal(await page.evaluate("document.querySelector('.row[aria-selected=true]').ariaExpanded"), "false");
    assert.equal((await rows()).length, 3);
    await page.press("ArrowRight");
    await page.press("ArrowRight");
    assert.equal(await chosen(), "L_CURLY");
    await page.press("ArrowLeft");
    assert.equal(await chosen(), "SELECTION_SET");
    await page.press("End");
    assert.equal(await chosen(), "R_CURLY");
    await page.press("Home");
    assert.equal(await chosen(), "DOCUMENT");
    const active = "document.getElementById(document.getElementById('tree').getAttribute('aria-activedescendant'))";
    assert.equal(await page.evaluate(`${active}.querySelector('.kind').textContent`), "DOCUMENT");
    await page.press("Enter");
    assert.equal(await page.evaluate("document.activeElement.id"), "text");
  },

  async "what is closed stays closed while one types"() {
    await show("{ a } { b }");
    const { x, y } = await row(2);
    await page.click(x, y);
    await focus("tree");
    await page.press("ArrowLeft");
    const before = (await rows()).length;
    await put(9);
    await page.type("c");
    await says("document");
    await page.until(
      "document.getElementById('text').value === '{ a } { bc }' || " +
        "document.getElementById('text').value === '{ a } { cb }'"
    );
    assert.equal((await rows()).length, before);
  },

  async "both limits are fields"() {
    await show("{ a { b } }");
    await setField("recursion", "1");
    await says("error");
    assert.match((await errors())[0], /limit/);
    await setField("recursion", "500");
    await says("A GraphQL document");
    await setField("tokens", "4");
    await says("error");
    await setField("tokens", "");
    await says("A GraphQL document");
  },

  // the layout is that of docs/FORMAT.md
  async "the formatter is a button, and can be undone"() {
    await show("{a}");
    const { x, y } = await place("#format");
    await page.click(x, y);
    await page.until("document.getElementById('text').value !== '{a}'");
    assert.equal(await text(), "{\n  a\n}\n");
    await focus("text");
    await page.send(
      "Input.dispatchKeyEvent",
      { type: "rawKeyDown", key: "z", code: "KeyZ", windowsVirtualKeyCode: 90, modifiers: CONTROL, commands: ["undo"] }
    );
    await page.until("document.getElementById('text').value === '{a}'");
  },

  async "a text with errors is not formatted"() {
    await show("{a");
    const { x, y } = await place("#format");
    await page.click(x, y);
    await says("not formatted");
    assert.equal(await text(), "{a");
  },

  async "the document is in the address"() {
    await show("{ a }");
    await put(3);
    await page.type("b");
    await page.until(`location.hash === ${quote(`#${encodeURIComponent("{ ab }")}`)}`);
    await page.evaluate("location.hash = encodeURIComponent('scalar S')");
    await page.until("document.getElementById('text').value === 'scalar S'");
    await page.evaluate("location.hash = '#%7Ba+b&c%'");
    await page.until("document.getElementById('text').value === '{a+b&c%'");
  },

  async "there are examples"() {
    await page.open(`${address}index.html`);
    const values = await page.evaluate("[...document.getElementById('examples').options].map((it) => it.value)");
    for (const value of values.filter((it) => !it.includes("*"))) {
      await setField("examples", value);
      await page.until(
        `fetch('examples/${value}').then((it) => it.text()).then((it) => it === document.getElementById('text').value)`
      );
      await says(value === "errors.graphql" ? " errors" : "A GraphQL document");
    }
  },

  async "a module whose stack is full is thrown away"() {
    await show("{ a }");
    await setField("recursion", "1000000");
    await page.evaluate(
      `(it => { it.value = "{a".repeat(100000); it.dispatchEvent(new Event("input")); })` +
        `(document.getElementById("text"))`
    );
    await says("too small");
    await page.evaluate(
      `(it => { it.value = "{ b }"; it.dispatchEvent(new Event("input")); })(document.getElementById("text"))`
    );
    await says("A GraphQL document");
  },

  async "a text is never taken for HTML"() {
    await show('<b>&amp;<img src="x"> "<i>"');
    assert.equal(
      await page.evaluate("document.querySelectorAll('#editor b, #editor i, img, #tree b, #tree i, #errors b').length"),
      0
    );
    assert.equal(await page.evaluate("document.querySelector('.words').textContent"), '<b>&amp;<img src="x"> "<i>"\n');
  },

  async "a browser without WebAssembly is told so"() {
    const { identifier } =
      await page.send("Page.addScriptToEvaluateOnNewDocument", { source: "delete globalThis.WebAssembly" });
    await page.open(`${address}index.html`);
    await says("This browser has no WebAssembly");
    await page.send("Page.removeScriptToEvaluateOnNewDocument", { identifier });
  },

  async "there is a light and a dark scheme"() {
    const colour = () => page.evaluate("getComputedStyle(document.body).backgroundColor");
    await page.size(1280, 800, "dark");
    await show("{ a }");
    const dark = await colour();
    await page.size(1280, 800);
    assert.notEqual(await colour(), dark);
  },

  async "a screen reader finds names, roles and levels"() {
    await show("{ a }");
    const { nodes } = await page.send("Accessibility.getFullAXTree");
    const found =
      nodes.filter((it) => !it.ignored).map((it) => ({
                                              role: it.role.value,
                                              name: it.name?.value ?? "",
                                              level: it.properties?.find((one) => one.name === "level")?.value.value
                                            }));
    const named = (role) => found.filter((it) => it.role === role).map((it) => it.name);
    assert.deepEqual(named("tree"), ["Tree of the text"]);
    assert.deepEqual(found.filter((it) => it.role === "treeitem").map((it) => it.level), [1, 2, 3, 4, 4, 5, 6, 4]);
    for (const role of ["textbox", "spinbutton", "combobox", "checkbox", "button"])
      assert.ok(named(role).every((name) => name !== ""), role);
    assert.ok(named("textbox").includes("GraphQL text"));
    assert.equal(found.filter((it) => it.role === "status").length, 1);
  },

  async "it fits a narrow window"() {
    await page.size(400, 900);
    await show("{ a }");
    assert.ok(await page.evaluate("document.documentElement.scrollWidth <= innerWidth"));
    await page.size(1280, 800);
  },

  // Chromium lays out all lines of a text area when it is filled, and at each letter. So the pauses are compared with
  // those of a bare one.
  async "a text of 1 MB does not stop the page"() {
    await show("{ a }");
    const [file, copies] =
      (await page.evaluate("[...document.getElementById('examples').options].find((it) => it.value.includes('*')).value"
       )
      ).split("*");
    const big = (await (await fetch(`${address}examples/${file}`)).text()).repeat(Number(copies));
    // the longest pause in milliseconds from an act until an expression holds and is painted
    const pause = async (act, done) => {
      await page.evaluate(
        "(window.longest = window.answers = 0, window.last ??= (setInterval(() => { " +
          "longest = Math.max(longest, performance.now() - last); last = performance.now(); }, 1), performance.now()))"
      );
      await act();
      await page.until(done, 60);
      await page.evaluate("new Promise((done) => requestAnimationFrame(() => setTimeout(done, 20)))");
      return page.evaluate("longest");
    };
    // of seven letters the pause in the middle, and of two loads the shorter one: other programs of the machine make
    // some longer
    const letter = async (done) => {
      await put(big.indexOf("enum Episode", big.length / 2));
      const pauses = [];
      for (const one of "# typed") pauses.push(await pause(() => page.type(one), done));
      return pauses.sort((a, b) => a - b)[3];
    };
    const isFull = `document.getElementById('text').value.length === ${big.length}`;
    const loadBare = async () => {
      await page.open(
        "data:text/html,<textarea id=text wrap=off spellcheck=false " +
          "style='position:absolute;width:600px;height:600px;font:14px/22px monospace'></textarea>"
      );
      return pause(() => page.evaluate(`document.getElementById("text").value = ${quote(big)}; 0`), isFull);
    };
    const loadOurs = async () => {
      await show("{ a }");
      await page.evaluate(
        "new MutationObserver(() => window.answers++).observe(document.getElementById('details'), { childList: true })"
      );
      return pause(() => setField("examples", `${file}*${copies}`), `${isFull} && window.answers > 0`);
    };

    const bare = { load: Math.min(await loadBare(), await loadBare()), letter: await letter("true") };
    const ours = { load: Math.min(await loadOurs(), await loadOurs()), letter: await letter("window.answers > 0") };
    console.log(`  the page stood still for ${ours.load.toFixed(0)} ms when it was loaded, and ${
      ours.letter.toFixed(0)} at a letter; a bare text area ${bare.load.toFixed(0)} and ${bare.letter.toFixed(0)}`);
    await says("error");
    assert.ok((await rows()).length < 200);
    assert.ok((await page.evaluate("document.querySelector('.words').textContent")).length < 10000);
    assert.ok(ours.load < 3 * bare.load + 3000, `the page stood still for ${ours.load} ms when it was loaded`);
    assert.ok(ours.letter < 3 * bare.letter + 500, `the page stood still for ${ours.letter} ms at a letter`);
  },

  // Typed, it would take Chromium a minute or more.
  async "a text of 1 MB is formatted at once"() {
    const words = `type A{a(b:C="${"x".repeat(80)}"):D}\n`;
    await show("{ a }");
    await setField("text", words.repeat(10000));
    await says("A GraphQL document");
    const begun = Date.now();
    await page.evaluate("document.getElementById('format').click()");
    await page.until("document.getElementById('text').value.startsWith('type A {\\n')", 60);
    const took = Date.now() - begun;
    console.log(`  a text of 1 MB was formatted in ${took} ms`);
    assert.ok(took < 20000, `it took ${took} ms`);
  },
};

async function takePictures(folder) {
  for (const [name, width, height, scheme] of [
         ["light", 1280, 800, "light"], ["dark", 1280, 800, "dark"], ["narrow", 400, 900, "light"]]) {
    await page.size(width, height, scheme);
    await page.open(`${address}index.html`);
    await says("errors");
    await page.evaluate(
      "document.getElementById('text').setSelectionRange(150, 150), " +
        "document.getElementById('text').focus({ preventScroll: true })"
    );
    await page.until("document.querySelector('.row[aria-selected=true]') !== null");
    const { x, y } = await place(".underlines span");
    await page.move(x, y);
    await new Promise((done) => setTimeout(done, 200));
    await page.picture(`${folder}/${name}.png`);
  }
}

let failed = 0;
await page.size(1280, 800);
for (const [name, test] of Object.entries(tests)) {
  try {
    await test();
    assert.deepEqual(page.faults.splice(0), []);
    console.log(`passed: ${name}`);
  } catch (error) {
    failed++;
    console.log(`FAILED: ${name}\n  ${error.message}\n  ${page.faults.splice(0).join("\n  ")}`);
  }
}
if (pictures !== undefined) await takePictures(pictures);
console.log(`${Object.keys(tests).length - failed} tests of the page passed, ${failed} failed`);
page.stop();
process.exit(failed === 0 ? 0 : 1);
