"""The page in a browser, as its tests use it."""
import json

from web_designs import text_of

AWAIT_ANSWER = """const end = Date.now() + 120000;
while (itv.finished === before) { if (Date.now() > end) throw new Error('no answer'); await new Promise(done => setTimeout(done, 2)); }"""
REST = """(async () => { const end = Date.now() + 60000; for (;;) { const before = itv.finished; await new Promise(done => setTimeout(done, 230));
if (before === itv.finished && !itv.runner.isAtWork) return; if (Date.now() > end) throw new Error('the search goes on'); } })()"""
MARKS = """(() => { const view = itv.editor.view, lines = [];
view.eachLine(line => { const signs = line.gutterMarkers && line.gutterMarkers.signs;
  if (signs) lines.push([view.getLineNumber(line) + 1, signs.textContent]); });
return { lines, reason: [...document.querySelectorAll('.reason')].map(e => e.firstChild.data.trim())[0] || '' }; })()"""
TEXTS = """(() => { const texts = [], walker = document.createTreeWalker(document.querySelector('.output'), NodeFilter.SHOW_TEXT);
for (let node = walker.nextNode(); node; node = walker.nextNode()) {
  if (!node.data.trim() || node.parentElement.closest('title, pre, [role=tablist], .raw, #of, #progress')) continue;
  const classes = []; for (let e = node.parentElement; e; e = e.parentElement) classes.push(...e.classList);
  texts.push([node.data.trim(), classes]); } return texts; })()"""


class Page:
    """The page in a browser, and what a test does with it."""

    def __init__(self, address, folder, browser):
        self.address, self.folder, self.browser = address, folder, browser
        # Most tests look at the text; those of the numbers show the table.
        self.view = "text"

    def load(self, address=None):
        self.browser.open(address or self.address)
        self.browser.wait_for("window.itv && itv.finished > 0")
        self.browser.evaluate(f"itv.showView('{self.view}')")

    def do(self, script):
        """Runs a script after which the page has another answer, and waits for the answer."""
        return self.browser.evaluate(f"(async () => {{ const before = itv.finished; {script}; {AWAIT_ANSWER} }})()")

    def open_files(self, design, files):
        self.do(f"itv.open({json.dumps({'design': design, 'files': files})})")

    def open_sheet(self, sheet):
        text = sheet if isinstance(sheet, str) else json.dumps(sheet, indent=1)
        self.open_files("sheet.json", {"sheet.json": text})

    def open_example(self, name):
        self.do(f"itv.openExample({json.dumps(name)})")

    def answer_to_key(self, key):
        """Types a key into the editor and waits for the drawn answer: the milliseconds from the one to the other."""
        self.browser.evaluate("window.answered = new Promise(done => { const before = itv.drawn, began = performance.now(); const look = () => "
                              "itv.drawn === before ? requestAnimationFrame(look) : done(performance.now() - began); look(); }); 1")
        self.browser.type(key)
        return self.browser.evaluate("window.answered")

    def open_all(self):
        """Opens all folded parts of the answer, and draws their figures."""
        self.browser.evaluate("(async () => { for (let k = 0; k < 3; k++) { for (const fold of document.querySelectorAll('#job details')) fold.open = true; "
                              "await new Promise(done => setTimeout(done, 0)); } itv.editor.view.refresh(); })()")

    def sentence(self):
        return self.browser.evaluate("document.getElementById('sentence').innerText.trim()")

    def texts(self):
        """The words of the answer's part, with the classes of the elements in which they stand."""
        return self.browser.evaluate(TEXTS)

    def run(self, words, files):
        return self.browser.evaluate(f"itv.runner.run({json.dumps(words)}, {json.dumps(files)})")

    def stand_in(self, printed):
        """Lets texts stand in for the program: what each job prints. A job without one is refused."""
        self.browser.evaluate(f"""window.program = window.program || itv.runner; itv.runner = {{ end() {{}}, run: async words => {{
            const printed = {json.dumps(printed)}, job = words[0] === '--job' ? words[1] : 'bounds';
            return job in printed ? {{ status: 0, text: printed[job] }} : {{ status: 4, text: 'refused file 0 NotJson\\n' }}; }} }}; 1""")

    def stand_back(self):
        self.browser.evaluate("itv.runner = window.program")

    def rest(self):
        """Waits until nothing is searched for: the margins are there too."""
        self.browser.evaluate(REST)

    def text_of(self, name):
        """The text of an open file."""
        return self.browser.evaluate(f"itv.files.find({json.dumps(name)}).text")

    def open_numbers(self, design, files=None):
        """Opens an example, or files, with the table of the numbers, and waits for its margins."""
        if files is None:
            self.open_example(design)
        else:
            self.open_files(design, files)
        self.browser.evaluate("itv.showView('numbers')")
        self.rest()

    def checks(self):
        return self.browser.evaluate(text_of("tools/dev/page_checks.js"))

    def marks(self):
        """The lines of the editor with a sign, from 1, and the reason below a line if there is one."""
        return self.browser.evaluate(MARKS)
