#!/usr/bin/env python3
"""Tests the page play/index.html in a headless browser, by what is typed and what is shown.

    python3 checks/play.py [FOLDER]     screenshots go to the folder, if one is given; play.png is the one in docs/

It needs chromium (`CHROMIUM` names another binary), and says so if there is none. Expected values are those of Python's
fractions and of the stored answers in examples/. `play/build --check` compares the page with its sources.
"""
import base64
import json
import os
import shutil
import subprocess
import sys
import tempfile
from fractions import Fraction
from math import floor, isqrt
from pathlib import Path

TOP = Path(__file__).resolve().parent.parent
PAGE = (TOP / "play" / "index.html").as_uri()
SHOTS = Path(sys.argv[1]) if len(sys.argv) > 1 else None
POLICIES = ["checked", "saturating", "wrapping", "overflowing", "strict"]
failures = []


def expect(what, seen, expected):
    if seen != expected:
        failures.append(f"{what}: {seen!r}, expected {expected!r}")


class Browser:
    """A headless browser with one page, over the pipe of its debugging protocol."""

    def __init__(self, binary, folder):
        to_browser, self.requests = os.pipe()
        self.replies, from_browser = os.pipe()
        # The browser reads from handle 3 and writes to handle 4.
        command = f'exec "$0" "$@" 3<&{to_browser} 4>&{from_browser}'
        flags = ["--headless=new", "--no-sandbox", "--disable-gpu", "--remote-debugging-pipe", f"--user-data-dir={folder}"]
        self.process = subprocess.Popen(["bash", "-c", command, binary, *flags, "about:blank"],
                                        pass_fds=[to_browser, from_browser], stderr=subprocess.DEVNULL)
        os.close(to_browser)
        os.close(from_browser)
        self.number, self.unread, self.session, self.events = 0, b"", None, []
        target = self.call("Target.createTarget", url="about:blank")["targetId"]
        self.session = self.call("Target.attachToTarget", targetId=target, flatten=True)["sessionId"]
        for domain in ["Page", "Runtime", "Network", "Log", "Accessibility"]:
            self.call(f"{domain}.enable")

    def message(self):
        while b"\0" not in self.unread:
            more = os.read(self.replies, 1 << 20)
            if not more:
                raise RuntimeError("the browser has ended")
            self.unread += more
        text, self.unread = self.unread.split(b"\0", 1)
        return json.loads(text)

    def call(self, method, **parameters):
        self.number += 1
        request = {"id": self.number, "method": method, "params": parameters}
        if self.session:
            request["sessionId"] = self.session
        os.write(self.requests, json.dumps(request).encode() + b"\0")
        while True:
            message = self.message()
            if message.get("id") != self.number:
                self.events.append(message)
            elif "error" in message:
                raise RuntimeError(f"{method}: {message['error']}")
            else:
                return message["result"]

    def value(self, expression):
        done = self.call("Runtime.evaluate", expression=expression, returnByValue=True, awaitPromise=True)
        if "exceptionDetails" in done:
            raise RuntimeError(f"{expression[:80]}: {done['exceptionDetails']}")
        return done["result"].get("value")

    def open(self, address):
        self.call("Page.navigate", url="about:blank")
        self.call("Page.navigate", url=address)
        self.value("new Promise(done => { const look = () => document.getElementById('script-state')?.textContent"
                   " || document.getElementById('failure')?.textContent ? done() : setTimeout(look, 10); look(); })")

    def type(self, name, text):
        """Replaces a field's text, as a user does who selects all of it and types."""
        self.value(f"document.getElementById({json.dumps(name)}).focus();"
                   f"document.getElementById({json.dumps(name)}).select()")
        if text:
            self.call("Input.insertText", text=text)
        else:
            self.press("Delete", 46)

    def choose(self, name, value):
        self.value(f"(field => {{ field.value = {json.dumps(value)};"
                   f" field.dispatchEvent(new Event('input', {{ bubbles: true }})); }})"
                   f"(document.getElementById({json.dumps(name)}))")

    def press(self, key, code):
        for kind in ["keyDown", "keyUp"]:
            self.call("Input.dispatchKeyEvent", type=kind, key=key, code=key, windowsVirtualKeyCode=code)

    def text(self, name):
        return self.value(f"document.getElementById({json.dumps(name)}).textContent")

    def rows(self, name):
        return self.value(f"[...document.getElementById({json.dumps(name)}).rows].map(row =>"
                          " [...row.cells].map(cell => [...cell.childNodes].map(node => node.textContent)))")

    def shoot(self, name, **clip):
        if SHOTS:
            image = self.call("Page.captureScreenshot", captureBeyondViewport=True, **clip)["data"]
            (SHOTS / f"{name}.png").write_bytes(base64.b64decode(image))

    def close(self):
        self.session = None
        self.call("Browser.close")
        self.process.wait()


def decimal(number):
    """All digits of a number whose denominator is a power of two or ten."""
    sign, number = "-" if number < 0 else "", abs(number)
    places = 0
    while (number * 10 ** places).denominator > 1:
        places += 1
    digits = str(int(number * 10 ** places)).rjust(places + 1, "0")
    return sign + (digits[:-places] + "." + digits[-places:] if places else digits)


def to_even(number):
    """The nearest whole number, and the even one of two."""
    return round(number)


def ends(word):
    width = int(word[1:])
    return (-2 ** (width - 1), 2 ** (width - 1) - 1) if word[0] == "i" else (0, 2 ** width - 1)


def wrapped(number, word):
    width = int(word[1:])
    rest = number % 2 ** width
    return rest - 2 ** width if word[0] == "i" and rest >= 2 ** (width - 1) else rest


def exact_units(op, a, b, one):
    """The exact result in units of the format, or None if it is undefined. The operands are units."""
    if op in ("div", "rem", "rem_euclid", "div_euclid", "next_multiple_of") and b == 0 or op == "recip" and a == 0:
        return None
    if op == "sqrt":
        return None if a < 0 else a * one  # of which the root is to be taken
    return {
        "add": lambda: a + b, "sub": lambda: a - b, "mul": lambda: Fraction(a * b, one), "neg": lambda: -a,
        "div": lambda: Fraction(a * one, b), "recip": lambda: Fraction(one * one, a), "abs": lambda: abs(a),
        "dist": lambda: abs(a - b), "signum": lambda: one * ((a > 0) - (a < 0)),
        "rem": lambda: (-1 if a < 0 else 1) * (abs(a) % abs(b)), "rem_euclid": lambda: a % abs(b),
        "div_euclid": lambda: (a - a % abs(b)) // b * one, "next_multiple_of": lambda: -(-a // b) * b,
        "next_power_of_two": lambda: 1 if a < 2 else 2 ** (a - 1).bit_length(),
    }[op]()


def rounded(op, units, rounding):
    if op == "sqrt":
        return isqrt(units)
    toward_zero = floor(units) if units >= 0 else -floor(-units)
    return {"down": floor(units), "zero": toward_zero, "even": to_even(units)}[rounding]


def is_offered(op, policy, word):
    if op in ("abs", "signum") and word[0] == "u" or op == "next_power_of_two" and word[0] == "i":
        return False
    if op in ("rem", "rem_euclid"):
        return policy in ("checked", "strict")
    return op != "next_power_of_two" or policy in ("checked", "wrapping", "strict")


def cell_of(policy, op, units, rounding, word, one):
    """What a cell of the table of policies shows."""
    if not is_offered(op, policy, word):
        return [f"not offered for {word}"]
    if units is None:
        if policy == "checked":
            return ["None", "the result is undefined"]
        return ["panics: " + ("the square root of a negative number is undefined" if op == "sqrt" else "the divisor is 0")]
    number = rounded(op, units, rounding)
    least, greatest = ends(word)
    fits = least <= number <= greatest
    if not fits and policy == "checked":
        return ["None", "the result does not fit"]
    if not fits and policy == "strict":
        return ["panics: the exact result does not fit"]
    bits = max(least, min(greatest, number)) if policy == "saturating" else wrapped(number, word)
    verdict = {True: ", and false: it fits", False: ", and true: it did not fit"}[fits] if policy == "overflowing" else ""
    return [decimal(Fraction(bits, one)), f"{bits} units{verdict}"]


UNARY = ["neg", "abs", "signum", "recip", "sqrt", "next_power_of_two"]
OPS = ["add", "sub", "mul", "div", "rem", "div_euclid", "rem_euclid", "next_multiple_of", "dist", *UNARY]
FORMATS = [("i8", 4, ["3.5", "-2.8", "0", "7.9375", "-8"]), ("u8", 8, ["0.5", "0.3", "0.996", "0"]),
           ("i16", 16, ["0.25", "-0.5", "0.1"]), ("u32", 0, ["7", "2.5", "4294967295"]),
           ("i32", 16, ["1.5", "-2.25", "32767.9999", "0.1"]), ("u64", 64, ["0.5", "0.333", "0.999999"]),
           ("i64", 32, ["-2147483648", "3.14159", "1000000.5"])]
DEFAULT = {"mul": "down", "div": "zero", "recip": "zero"}


def test_operations(browser):
    """Each operation in each format, with each pair of operands, beside Python's fractions."""
    browser.open(PAGE)
    seen = 0
    for word, fraction, texts in FORMATS:
        browser.choose("word", word)
        browser.choose("fraction", str(fraction))
        for op in OPS:
            browser.choose("op", op)
            for a in texts:
                browser.choose("a", a)
                for b in texts[:1] if op in UNARY else texts:
                    browser.choose("b", b)
                    seen += test_operation(browser, word, fraction, op, a, b)
    return seen


def test_operation(browser, word, fraction, op, a, b):
    one = 2 ** fraction
    units = exact_units(op, to_even(Fraction(a) * one), to_even(Fraction(b) * one), one)
    where = f"{word} {fraction}: {op} {a} {b}"
    roundings = ["down", "zero", "even"] if op in DEFAULT else ["down"]
    expected = [[[policy]] + [cell_of(policy, op, units, rounding, word, one) for rounding in roundings]
                for policy in POLICIES]
    expect(where, browser.rows("policies"), expected)
    test_exact(browser.text("exact"), where, op, units, one)
    return len(POLICIES) * len(roundings)


def test_exact(shown, where, op, units, one):
    """The exact result, which is shown with all its digits if they end, and otherwise with the first 30."""
    if units is None:
        expect(where, shown.endswith(" is undefined."), True)
        return
    text = shown.split(" is ")[-1]
    number = Fraction(isqrt(units * 10 ** 100), 10 ** 50) / one if op == "sqrt" else Fraction(units) / one
    if text.endswith("…"):
        digits = len(text.split(".")[1]) - 1
        below = floor(abs(number) * 10 ** digits)
        expect(where + ", exactly", abs(Fraction(text[:-1])) * 10 ** digits, below)
    else:
        expect(where + ", exactly", Fraction(text), number)


def test_scripts(browser):
    """The stored scripts: answers as stored, and the exact value of each."""
    for path in sorted((TOP / "examples").glob("*.txt")):
        browser.type("script", path.read_text())
        lines = path.read_text().splitlines()
        fractions = [int(token) for token in lines[0].split()[1:]]
        expected = []
        for line, answer in zip(lines[1:], path.with_suffix(".answers").read_text().splitlines()):
            bits = answer.split()[0]
            value = "None" if bits == "none" else decimal(Fraction(int(bits), 2 ** fractions[int(line.split()[0][1:])]))
            expected.append([[line], [bits], [value]])
        expect(path.name, [row[1:] for row in browser.rows("answers")][1:], expected)


def test_causes(browser):
    """The first cause of a script, in words, at its line."""
    cases = {
        "i8 4\nr0 set 127\nr0 strict add r0 r0\n": (3, "overflow"),
        "i8 4\nr0 set 128\n": (2, "out of range"), "i8 9\n": (1, "out of range"),
        "i8 4 5\nr0 wrapping add r0 r1\n": (2, "fraction mismatch"), "i8 4\nr0 wrapping div r0 r0\n": (2, "zero divisor"),
        "i8 4\nr0 set -1\nr0 saturating sqrt r0\n": (3, "negative root"), "i8 4\nr0 set 1\nr0 adds 1\n": (3, "syntax"),
        "": (1, "syntax"), "hello": (1, "syntax"), "i8 4\n\n": (2, "syntax"),
        "i8 4\nr0 set 100\nr0 strict add r0 r0": (3, "overflow"),
    }
    for script, (line, cause) in cases.items():
        browser.type("script", script)
        state = browser.text("script-state")
        expect(repr(script), state.startswith(f"Line {line} stops the script: "), True)
        rows = browser.rows("answers")
        if rows:
            expect(repr(script), rows[line - 1][3][0].startswith(cause + ": "), True)
            expect(repr(script), len([row for row in rows[1:line - 1] if row[2] == [""]]), 0)


def test_long_script(browser):
    """A script of 100,000 lines, of which a part is shown at a time."""
    browser.type("script", "i32 16\n")
    browser.value("document.getElementById('script').value = 'i32 16\\n' + 'r0 checked add r0 r0\\n'.repeat(99999)")
    time = browser.value("(start => { document.getElementById('script').dispatchEvent(new Event('input'));"
                         " return performance.now() - start; })(performance.now())")
    expect("a long script", browser.text("script-state"), "99,999 answers.")
    expect("a long script's rows", len(browser.rows("answers")), 200)
    browser.value("document.getElementById('next').click()")
    expect("the next rows", browser.rows("answers")[0], [["201"], ["r0 checked add r0 r0"], ["0"], ["0"]])
    browser.value("document.getElementById('script').value += 'r0 set x\\n';"
                  " document.getElementById('script').dispatchEvent(new Event('input'))")
    expect("the cause of a long script", browser.text("script-state")[:30], "Line 100001 stops the script: ")
    expect("its row", browser.rows("answers")[0][0], ["100001"])
    browser.value("document.getElementById('copy').click()")
    browser.value("new Promise(done => setTimeout(done, 100))")
    expect("its link", "too long" in browser.text("copied"), True)
    return time


def test_bad_input(browser):
    """What no number is, in words, and nothing beside it."""
    browser.open(PAGE)
    cases = {"": "Type a number", "x": "no decimal number", "1.2.3": "more than one point", "1e5": "no decimal number",
             "-": "Type a number", "8": "above the greatest value, 7.9375", "-8.1": "below the least value, -8",
             "1,5": "no decimal number", "<b>1</b>": "no decimal number", "9" * 300: "above the greatest"}
    for text, words in cases.items():
        browser.type("a", text)
        expect(f"a = {text[:9]!r}", words in browser.text("a-note"), True)
        expect(f"a = {text[:9]!r}", browser.rows("policies"), [])
        expect(f"a = {text[:9]!r}", browser.value("document.getElementById('a').getAttribute('aria-invalid')"), "true")
    browser.type("a", "7.9687500000000000000000000000000000000000000000001")
    expect("a long decimal", "above the greatest" in browser.text("a-note"), True)
    browser.type("a", "+1.50")
    expect("a sign and a zero", browser.text("a-note"), "a is exact in this format: 24 units.")
    for text in ["9", "-1", "", "1.5", "99999999"]:
        browser.type("fraction", text)
        expect(f"{text!r} fraction bits", "from 0 to 8 for i8" in browser.text("fraction-error"), True)
    browser.type("fraction", "8")
    expect("8 fraction bits", browser.text("format"), "from -0.5 to 0.49609375 in steps of 1/256 (0.00390625)")


def test_ranges(browser):
    """How many bits ranges need, by whole numbers."""
    browser.open(PAGE)
    cases = [("-3.3", "3.3", "0.001"), ("0", "1", "0.01"), ("0", "255", "1"), ("-128", "127", "1"), ("0", "0.99", "0.004"),
             ("-1000000", "1000000", "0.000001"), ("0", "18446744073709551615", "1"), ("-0.5", "0.4", "0.0000001")]
    for least, greatest, step in cases:
        for name, text in zip(["least", "greatest", "step"], [least, greatest, step]):
            browser.type(name, text)
        expect(f"range {least} {greatest} {step}", browser.rows("formats"), range_rows(least, greatest, step))
        expect(f"range {least} {greatest} {step}", browser.text("needs"), range_text(least, greatest, step))
    for name, text, words in [("step", "0", "above 0"), ("step", "-1", "above 0"), ("least", "x", "no decimal"),
                              ("greatest", "1" + "0" * 30, "more than 64 bits"), ("greatest", "-4", "not be below")]:
        browser.open(PAGE)
        browser.type(name, text)
        expect(f"{name} = {text}", words in browser.text(f"{name}-error"), True)
        expect(f"{name} = {text}", browser.rows("formats"), [])


def four_digits(text):
    """A decimal below 1, cut behind four digits that count."""
    zeros = len(text) - len(text[2:].lstrip("0"))
    return text[:zeros + 4] + "…" if text.startswith("0.") and len(text) > zeros + 4 else text


def range_rows(least, greatest, step):
    rows = []
    for word in "i8 i16 i32 i64 u8 u16 u32 u64".split():
        low, high = ends(word)
        fitting = [fraction for fraction in range(int(word[1:]) + 1)
                   if all(low <= to_even(Fraction(text) * 2 ** fraction) <= high for text in (least, greatest))]
        if fitting:
            one = 2 ** max(fitting)
            is_fine = Fraction(1, one) <= Fraction(step)
            step_text = [four_digits(decimal(Fraction(1, one))), f"2^-{max(fitting)}"]
            rows.append([[word], [str(max(fitting))], step_text, ["yes" if is_fine else "no"], ["Use"]])
    return rows


def range_text(least, greatest, step):
    """The smallest word that has the range in steps as fine, and how many bits of it are used."""
    fewest = next(fraction for fraction in range(65) if Fraction(1, 2 ** fraction) <= Fraction(step))
    bits = f"A step that fine needs {fewest} fraction bits."
    good = [row for row in range_rows(least, greatest, step) if int(row[1][0]) >= fewest]
    if not good:
        return f"{bits} No word of at most 64 bits has them with this range."
    smallest = min(good, key=lambda row: int(row[0][0][1:]))
    word, most = smallest[0][0], int(smallest[1][0])
    low, high = (to_even(Fraction(text) * 2 ** fewest) for text in (least, greatest))
    used = next(n for n in range(65) if (-2 ** n <= 2 * low and 2 * high < 2 ** n if low < 0 else high < 2 ** n))
    spare = f" It has room for up to {most} fraction bits." if most > fewest else ""
    return (f"{bits} The range is then {low} to {high} units, which takes {used} bits. "
            f"The smallest word is {word}: Fixed{word.upper()}<{fewest}>.{spare}")


def test_link(browser):
    """A link keeps what was typed."""
    browser.open(PAGE)
    browser.choose("word", "u16")
    browser.type("fraction", "12")
    browser.type("a", "0.7")
    browser.choose("op", "div")
    browser.type("least", "-1")
    browser.type("script", "u8 8\nr0 set 7\nr0 saturating mul r0 r0\n")
    browser.value("new Promise(done => setTimeout(done, 500))")
    address = browser.value("location.href")
    before = [browser.text(name) for name in ["exact", "policies", "formats", "answers"]]
    browser.open(address)
    expect("the link", [browser.text(name) for name in ["exact", "policies", "formats", "answers"]], before)
    browser.open(PAGE + "#word=nothing&fraction=x&script=%E0%A4%A&a=%00")
    expect("a broken link", browser.text("failure"), "")


def test_keyboard(browser):
    """The Tab key reaches each control in order, and each has a visible focus."""
    browser.open(PAGE)
    controls = browser.value("[...document.querySelectorAll('button, input, select, textarea, [tabindex]')]"
                             ".filter(one => !one.disabled && one.offsetParent).length")
    reached = set()
    for _ in range(controls):
        browser.press("Tab", 9)
        reached.add(browser.value("(one => one.id || one.getAttribute('aria-labelledby') || one.getAttribute('aria-label'))"
                                  "(document.activeElement)"))
        outline = browser.value("getComputedStyle(document.activeElement).outlineStyle")
        expect("the outline of what has the focus", outline, "solid")
    expect("controls that Tab reaches", len(reached), controls)
    browser.value("document.getElementById('to-script').focus()")
    browser.call("Input.dispatchKeyEvent", type="keyDown", key="Enter", code="Enter", windowsVirtualKeyCode=13, text="\r")
    browser.call("Input.dispatchKeyEvent", type="keyUp", key="Enter", code="Enter", windowsVirtualKeyCode=13)
    expect("Enter on a button", "r2 wrapping mul r0 r1" in browser.value("document.getElementById('script').value"), True)
    expect("its answers", browser.text("script-state"), "6 answers.")


CONTRAST = """
(() => {
  const light = text => {
    const parts = text.match(/[0-9.]+/g).slice(0, 3).map(part => part / 255)
      .map(part => part <= 0.04045 ? part / 12.92 : ((part + 0.055) / 1.055) ** 2.4);
    return 0.2126 * parts[0] + 0.7152 * parts[1] + 0.0722 * parts[2];
  };
  const ground = one => {
    for (; one; one = one.parentElement) {
      const color = getComputedStyle(one).backgroundColor;
      if (!/, 0\\)$/.test(color)) return color;
    }
    return "rgb(255, 255, 255)";
  };
  let least = 99;
  for (const one of document.querySelectorAll("body *")) {
    if (!one.offsetParent || ![...one.childNodes].some(node => node.nodeType === 3 && node.textContent.trim())) continue;
    const [x, y] = [light(getComputedStyle(one).color), light(ground(one))].sort((p, q) => q - p);
    least = Math.min(least, (x + 0.05) / (y + 0.05));
  }
  return least;
})()
"""


def test_looks(browser):
    """A wide screen and a phone, light and dark: contrast of at least 4.5, and nothing wider than the screen."""
    least = 99
    for width, height, phone in [(1100, 900, False), (360, 740, True)]:
        browser.call("Emulation.setDeviceMetricsOverride", width=width, height=height, deviceScaleFactor=1 + phone,
                     mobile=phone)
        for scheme in ["light", "dark"]:
            browser.call("Emulation.setEmulatedMedia", features=[{"name": "prefers-color-scheme", "value": scheme}])
            browser.open(PAGE + "#script=i8+4%0Ar0+set+100%0Ar0+strict+add+r0+r0")
            least = min(least, browser.value(CONTRAST))
            expect(f"the page's width at {width}", browser.value(f"document.documentElement.scrollWidth <= {width}"), True)
            browser.shoot(f"{width}-{scheme}")
    expect("contrast of 4.5 or more", least >= 4.5, True)
    return least


def shoot_picture(browser):
    """The picture of docs/play.png: the page from its top to the table of policies."""
    browser.call("Emulation.setEmulatedMedia", features=[{"name": "prefers-color-scheme", "value": "light"}])
    browser.call("Emulation.setDeviceMetricsOverride", width=920, height=900, deviceScaleFactor=1, mobile=False)
    browser.open(PAGE)
    end = browser.value("document.getElementById('policies-table').getBoundingClientRect().bottom")
    browser.shoot("play", clip={"x": 0, "y": 0, "width": 920, "height": end + 4, "scale": 1})


def test_names(browser):
    """Each control has a name for those who do not see it."""
    browser.open(PAGE)
    nodes = browser.call("Accessibility.getFullAXTree")["nodes"]
    controls = [node for node in nodes if node.get("role", {}).get("value") in
                ("button", "textbox", "combobox", "spinbutton", "region", "table")]
    for node in controls:
        expect(f"the name of a {node['role']['value']}", bool(node.get("name", {}).get("value")), True)
    return len(controls)


def test_quiet(browser):
    """Nothing was asked of a network, and the console has no word."""
    for event in browser.events:
        method, parameters = event.get("method"), event.get("params", {})
        if method == "Network.requestWillBeSent":
            address = parameters["request"]["url"]
            expect("a request", address.startswith((PAGE, "about:")), True)
        elif method in ("Runtime.exceptionThrown", "Log.entryAdded", "Runtime.consoleAPICalled"):
            failures.append(f"the console: {json.dumps(parameters)[:300]}")


def main():
    binary = os.environ.get("CHROMIUM") or shutil.which("chromium") or shutil.which("chromium-browser")
    if not binary:
        print("checks/play.py: no chromium is here, and the page was not tested")
        return
    with tempfile.TemporaryDirectory(ignore_cleanup_errors=True) as folder:
        browser = Browser(binary, folder)
        cells = test_operations(browser)
        test_scripts(browser)
        test_causes(browser)
        time = test_long_script(browser)
        test_bad_input(browser)
        test_ranges(browser)
        test_link(browser)
        test_keyboard(browser)
        contrast = test_looks(browser)
        shoot_picture(browser)
        names = test_names(browser)
        test_quiet(browser)
        browser.close()
    for failure in failures[:40]:
        print(failure)
    print(f"{cells} cells of policies, {names} named controls, contrast {contrast:.1f}, "
          f"100,000 lines in {time:.0f} ms: {len(failures)} failures")
    sys.exit(bool(failures))


main()
