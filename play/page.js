"use strict";

const MODULE = "@WASM@";
const EXAMPLES = @EXAMPLES@;

const WORDS = ["i8", "i16", "i32", "i64", "u8", "u16", "u32", "u64"];
const POLICIES = ["checked", "saturating", "wrapping", "overflowing", "strict"];
const ROUNDINGS = { down: "Down", zero: "Toward zero", even: "Nearest, ties to even" };
const LINES_SHOWN = 200;
const LONGEST_LINK = 8000;

const CAUSES = {
  "syntax": "the calculator does not know this line, or the policy does not offer this operation for the word",
  "out-of-range": "a number does not fit the word, a register is not declared, or a format has too many fraction bits",
  "fraction-mismatch": "the registers of this operation must have the same fraction bits",
  "zero-divisor": "the divisor is 0",
  "negative-root": "the square root of a negative number is undefined",
  "overflow": "the exact result does not fit, and the policy is strict",
};

const FAULTS = {
  "no digits": "Type a number such as -1.25.",
  "invalid digit": "This is no decimal number. Type digits with at most one point, such as -1.25.",
  "more than one point": "This number has more than one point.",
};

const byId = id => document.getElementById(id);

/* The proved code */

let proved;

/** Passes a request to an export of the module, and returns the reply. */
function ask(name, request) {
  const bytes = new TextEncoder().encode(request);
  const place = proved.request_room(bytes.length) >>> 0;
  if (place === 0) return "memory\n";
  new Uint8Array(proved.memory.buffer, place, bytes.length).set(bytes);
  proved[name]();
  const reply = new Uint8Array(proved.memory.buffer, proved.reply() >>> 0, proved.reply_length() >>> 0);
  return new TextDecoder().decode(reply);
}

/** Runs a script. Returns the answers before the first cause, and that cause with its line. */
function runScript(text) {
  const [status, ...lines] = ask("run_script", text).split("\n");
  const [cause, line] = status.split(" ");
  lines.pop();
  const answers = lines.map(answer => {
    const [bits, ...rest] = answer.split(" ");
    const didNotFit = rest.length === 2 ? rest[0] === "true" : null;
    return { bits, didNotFit, value: bits === "none" ? null : rest[rest.length - 1] };
  });
  return { cause: cause === "ok" ? null : cause, line: Number(line), answers };
}

/** Reads a decimal in a format. Returns its bits and their exact value, or the side or fault that prevents it. */
function readDecimal(text, word, fraction, rounding = "even") {
  const reply = ask("read_decimal", `${word} ${fraction} ${rounding} ${text.trim()}`);
  if (reply === "above" || reply === "below") return { side: reply };
  const [kind, bits, value] = reply.split(" ");
  return kind === "fits" ? { bits: BigInt(bits), value } : { fault: FAULTS[reply] };
}

/* Exact results, which may need more bits than any word */

const widthOf = word => Number(word.slice(1));
const isSigned = word => word[0] === "i";
const magnitude = number => number < 0n ? -number : number;
const quotientDown = (a, b) => a / b - (a % b !== 0n && (a < 0n) !== (b < 0n) ? 1n : 0n);
const quotientUp = (a, b) => -quotientDown(-a, b);
const quotientEuclid = (a, b) => b > 0n ? quotientDown(a, b) : quotientUp(a, b);
const leastPower = number => { let power = 1n; while (power < number) power *= 2n; return power; };

/** Returns the floor of the square root. */
function rootDown(number) {
  if (number < 2n) return number;
  let root = 1n << BigInt((number.toString(2).length + 1) >> 1);
  for (;;) {
    const next = (root + number / root) >> 1n;
    if (next >= root) return root;
    root = next;
  }
}

/** Returns the first decimals of a rational number, and three dots if there are more. */
function decimalOf({ numerator, denominator, isCut }, most) {
  const size = magnitude(numerator);
  let rest = size % denominator;
  let digits = "";
  while (rest && digits.length < most) {
    rest *= 10n;
    digits += rest / denominator;
    rest %= denominator;
  }
  const sign = numerator < 0n ? "-" : "";
  return sign + size / denominator + (digits && "." + digits) + (rest || isCut ? "…" : "");
}

/** Returns the square root of a whole number, cut behind 30 decimals. */
function rootOf(number) {
  const numerator = rootDown(number * 10n ** 60n);
  return { numerator, denominator: 10n ** 30n, isCut: numerator ** 2n !== number * 10n ** 60n };
}

const whole = (numerator, denominator) =>
  denominator < 0n ? { numerator: -numerator, denominator: -denominator } : { numerator, denominator };

/** The operations: how they are written, how many operands they have, which rounding is the default if one can be named,
    and their exact result in units of 2^-fraction. The operands are bits, and `one` is the bits of 1. */
const OPERATIONS = {
  add: { sign: "a + b", exact: (a, b) => whole(a + b, 1n) },
  sub: { sign: "a - b", exact: (a, b) => whole(a - b, 1n) },
  mul: { sign: "a × b", rounding: "down", exact: (a, b, one) => whole(a * b, one) },
  div: { sign: "a ÷ b", rounding: "zero", exact: (a, b, one) => b ? whole(a * one, b) : null },
  rem: { sign: "remainder of a ÷ b, with the sign of a", exact: (a, b) => b ? whole(a % b, 1n) : null },
  div_euclid: { sign: "Euclid's quotient of a ÷ b",
    exact: (a, b, one) => b ? whole(quotientEuclid(a, b) * one, 1n) : null },
  rem_euclid: { sign: "Euclid's remainder of a ÷ b", exact: (a, b) => b ? whole(a - b * quotientEuclid(a, b), 1n) : null },
  next_multiple_of: { sign: "next multiple of b from a", exact: (a, b) => b ? whole(b * quotientUp(a, b), 1n) : null },
  dist: { sign: "distance of a and b", exact: (a, b) => whole(magnitude(a - b), 1n) },
  neg: { sign: "minus a", unary: true, exact: a => whole(-a, 1n) },
  abs: { sign: "magnitude of a", unary: true, exact: a => whole(magnitude(a), 1n) },
  signum: { sign: "sign of a", unary: true, exact: (a, b, one) => whole(a > 0n ? one : a < 0n ? -one : 0n, 1n) },
  recip: { sign: "1 ÷ a", unary: true, rounding: "zero", exact: (a, b, one) => a ? whole(one * one, a) : null },
  sqrt: { sign: "square root of a", unary: true, note: "The square root is always rounded down.",
    exact: (a, b, one) => a < 0n ? null : rootOf(a * one) },
  next_power_of_two: { sign: "least power of two from a on", unary: true, exact: a => whole(leastPower(a), 1n) },
};

/* Elements */

function element(name, text, kind) {
  const made = document.createElement(name);
  made.textContent = text;
  if (kind) made.className = kind;
  return made;
}

function rowHead(text) {
  const head = element("th", text);
  head.scope = "row";
  return head;
}

function addRow(body, ...cells) {
  const row = document.createElement("tr");
  row.append(...cells);
  body.append(row);
}

function valueCell(value, note) {
  const cell = element("td", value, "value");
  if (note) cell.append(element("span", note, "small"));
  return cell;
}

function markField(id, isValid) {
  byId(id).setAttribute("aria-invalid", String(!isValid));
}

/** Shows a message beside a field, as an error if the field's text cannot be used. */
function tell(id, note, text, isError) {
  byId(note).textContent = text;
  byId(note).className = isError ? "error" : "note";
  markField(id, !isError);
}

/* One operation */

/** Returns the fraction bits that are typed, or null with a message if the word has no such format. */
function typedFraction(word) {
  const text = byId("fraction").value.trim();
  const fraction = Number(text);
  const fits = /^[0-9]{1,3}$/.test(text) && fraction <= widthOf(word);
  const message = `Fraction bits are a whole number from 0 to ${widthOf(word)} for ${word}.`;
  byId("fraction-error").textContent = fits ? "" : message;
  markField("fraction", fits);
  return fits ? fraction : null;
}

/** Returns the ends of a format as exact text. */
function endsOf(word, fraction) {
  const width = BigInt(widthOf(word));
  const least = isSigned(word) ? -(1n << (width - 1n)) : 0n;
  const greatest = (1n << (isSigned(word) ? width - 1n : width)) - 1n;
  const { answers } = runScript(`${word} ${fraction}\nr0 set ${least}\nr0 set ${greatest}\nr0 set 1\n`);
  return answers.map(answer => answer.value);
}

/** Returns what a field's decimal becomes in the format, or null with a message. */
function typedOperand(name, word, fraction) {
  const note = `${name}-note`;
  const read = readDecimal(byId(name).value, word, fraction);
  if (read.fault) {
    tell(name, note, `${name}: ${read.fault}`, true);
  } else if (read.side) {
    const [least, greatest] = endsOf(word, fraction);
    const end = read.side === "above" ? `above the greatest value, ${greatest}` : `below the least value, ${least}`;
    tell(name, note, `${name} does not fit this format: it is ${end}.`, true);
  } else {
    const isKept = isSameNumber(byId(name).value, read.value);
    const inexact = `${name} becomes ${read.value}, the nearest number of this format`;
    const how = isKept ? `${name} is exact in this format` : inexact;
    tell(name, note, `${how}: ${read.bits} units.`, false);
    return read;
  }
  return null;
}

/** Whether two decimals are the same number. */
function isSameNumber(one, other) {
  const plain = text => {
    const [, sign, front, back] = /^([+-]?)0*([0-9]*)\.?([0-9]*?)0*$/.exec(text.trim());
    return (sign === "-" && front + back ? "-" : "") + front + "." + back;
  };
  return plain(one) === plain(other);
}

/** An operation with its operands in place of their names. */
function written(operation, a, b) {
  return operation.sign.replace(/\b[ab]\b/g, name => name === "a" ? a.value : b.value);
}

function showExact(operation, fraction, a, b) {
  const one = 1n << BigInt(fraction);
  const exact = operation.exact(a.bits, b.bits, one);
  if (exact === null) {
    byId("exact").textContent = `The exact result of ${written(operation, a, b)} is undefined.`;
    return;
  }
  const value = { ...exact, denominator: exact.denominator * one };
  const all = decimalOf(value, 130);
  const shown = all.endsWith("…") ? decimalOf(value, 30) : all;
  byId("exact").textContent = `The exact result of ${written(operation, a, b)} is ${shown}`;
  byId("units").textContent = `That is ${decimalOf(exact, 12)} units of ${unitText(one)}.`;
}

const unitText = one => one === 1n ? "1" : `1/${one.toLocaleString("en")}`;

/** The script that runs an operation with one policy and rounding. */
function operationScript({ word, fraction, op, a, b }, policy, rounding) {
  const { unary } = OPERATIONS[op];
  const registers = unary ? [fraction, fraction] : [fraction, fraction, fraction];
  const lines = [`${word} ${registers.join(" ")}`, `r0 set ${a}`];
  if (!unary) lines.push(`r1 set ${b}`);
  const operands = unary ? "r0" : "r0 r1";
  const dest = unary ? "r1" : "r2";
  lines.push(`${dest} ${policy} ${op} ${operands}${rounding ? " " + rounding : ""}`);
  return lines.join("\n") + "\n";
}

function policyCell(chosen, policy, rounding) {
  const { cause, answers } = runScript(operationScript(chosen, policy, rounding));
  if (cause === "syntax") return element("td", `not offered for ${chosen.word}`, "note");
  if (cause) return element("td", `panics: ${CAUSES[cause].replace(", and the policy is strict", "")}`, "error");
  const { bits, value, didNotFit } = answers[answers.length - 1];
  if (value === null) return valueCell("None", chosen.isDefined ? "the result does not fit" : "the result is undefined");
  const verdict = didNotFit === null ? "" : didNotFit ? ", and true: it did not fit" : ", and false: it fits";
  return valueCell(value, `${bits} units${verdict}`);
}

function showPolicies(chosen) {
  const operation = OPERATIONS[chosen.op];
  const roundings = operation.rounding ? Object.keys(ROUNDINGS) : [""];
  const heads = roundings.map(rounding => {
    const text = rounding ? ROUNDINGS[rounding] + (rounding === operation.rounding ? " (default)" : "") : "Result";
    const head = element("th", text);
    head.scope = "col";
    return head;
  });
  const first = element("th", "Policy");
  first.scope = "col";
  byId("policies-head").replaceChildren(first, ...heads);
  byId("policies").replaceChildren();
  for (const policy of POLICIES) {
    addRow(byId("policies"), rowHead(policy), ...roundings.map(rounding => policyCell(chosen, policy, rounding)));
  }
}

function clearOperation() {
  for (const id of ["exact", "units", "op-note"]) byId(id).textContent = "";
  byId("policies").replaceChildren();
  byId("policies-head").replaceChildren();
  byId("to-script").disabled = true;
}

let chosenOperation = null;

function showOperation() {
  const word = byId("word").value;
  const op = byId("op").value;
  const operation = OPERATIONS[op];
  byId("b-label").hidden = Boolean(operation.unary);
  byId("b-note").hidden = Boolean(operation.unary);
  clearOperation();
  chosenOperation = null;
  const fraction = typedFraction(word);
  byId("format").textContent = "";
  for (const name of ["a", "b"]) tell(name, `${name}-note`, "", false);
  if (fraction === null) return;
  const [least, greatest, step] = endsOf(word, fraction);
  byId("format").textContent = `from ${least} to ${greatest} in steps of ${unitText(1n << BigInt(fraction))} (${step})`;
  const a = typedOperand("a", word, fraction);
  const b = operation.unary ? { bits: 0n } : typedOperand("b", word, fraction);
  if (a === null || b === null) return;
  const isDefined = operation.exact(a.bits, b.bits, 1n << BigInt(fraction)) !== null;
  chosenOperation = { word, fraction, op, a: a.bits, b: b.bits, isDefined };
  showExact(operation, fraction, a, b);
  showPolicies(chosenOperation);
  byId("op-note").textContent = operation.note || "";
  byId("to-script").disabled = false;
}

function writeAsScript() {
  const { word } = chosenOperation;
  const lines = operationScript(chosenOperation, "checked", "").split("\n").slice(0, -1);
  const last = lines.pop();
  const offered = POLICIES.filter(policy => runScript(operationScript(chosenOperation, policy, "")).cause !== "syntax");
  const calls = offered.filter(policy => policy !== "strict").map(policy => last.replace("checked", policy));
  byId("script").value = [...lines, ...calls].join("\n") + "\n";
  byId("example").value = "";
  showScript();
  byId("script").focus();
}

/* How many bits a range needs */

/** Returns a typed end of the range, or null with a message. */
function typedBound(id, name) {
  const text = byId(id).value;
  const read = readDecimal(text, "i64", 0);
  const unsigned = read.side === "above" ? readDecimal(text, "u64", 0) : read;
  const message = read.fault ? read.fault : unsigned.side ? "This number needs more than 64 bits before the point." : "";
  byId(`${id}-error`).textContent = message && `${name}: ${message}`;
  markField(id, !message);
  return message ? null : text;
}

/** Returns the most fraction bits with which both ends fit a word, or null. */
function mostFraction(word, least, greatest) {
  for (let fraction = widthOf(word); fraction >= 0; fraction--) {
    const fits = text => readDecimal(text, word, fraction).bits !== undefined;
    if (fits(least) && fits(greatest)) return fraction;
  }
  return null;
}

/** Returns the fewest fraction bits whose step is at most the decimal, or null if 64 do not suffice. */
function fewestFraction(step) {
  for (let fraction = 0; fraction <= 64; fraction++) {
    const read = readDecimal(step, "u64", fraction, "down");
    if (read.side === "above" || read.bits >= 1n) return fraction;
  }
  return null;
}

/** Returns a typed step, or null with a message. */
function typedStep() {
  const text = byId("step").value;
  const read = readDecimal(text, "i64", 0, "down");
  const isPositive = !read.fault && readDecimal(text, "u64", 64, "down").side !== "below" && /[1-9]/.test(text);
  const message = read.fault ? read.fault : isPositive ? "" : "It must be above 0.";
  byId("step-error").textContent = message && `Step: ${message}`;
  markField("step", !message);
  return message ? null : text;
}

/** Whether the least value is at most the greatest, by their units in the finest common format. */
function isOrdered(least, greatest) {
  for (const word of ["i64", "u64"]) {
    const fraction = mostFraction(word, least, greatest);
    if (fraction === null) continue;
    return readDecimal(least, word, fraction).bits <= readDecimal(greatest, word, fraction).bits;
  }
  return readDecimal(least, "i64", 0).bits < 0n;
}

/** How many bits hold both numbers of units. */
function bitsFor(least, greatest) {
  const size = number => number < 0n ? (-number - 1n).toString(2).length : number.toString(2).length;
  const plain = number => number === 0n || number === -1n ? 0 : size(number);
  return Math.max(plain(least), plain(greatest)) + (least < 0n ? 1 : 0);
}

function clearRange() {
  byId("needs").textContent = "";
  byId("formats").replaceChildren();
}

function showRange() {
  clearRange();
  const least = typedBound("least", "Least value");
  const greatest = typedBound("greatest", "Greatest value");
  const step = typedStep();
  if (least === null || greatest === null || step === null) return;
  if (!isOrdered(least, greatest)) {
    byId("greatest-error").textContent = "Greatest value: it must not be below the least value.";
    markField("greatest", false);
    return;
  }
  const fewest = fewestFraction(step);
  const rows = WORDS.map(word => ({ word, most: mostFraction(word, least, greatest) })).filter(row => row.most !== null);
  const good = rows.filter(row => fewest !== null && row.most >= fewest);
  good.sort((x, y) => widthOf(x.word) - widthOf(y.word));
  byId("needs").textContent = needsText(least, greatest, fewest, good[0]);
  for (const row of rows) addFormat(row, fewest);
}

function needsText(least, greatest, fewest, smallest) {
  if (fewest === null) return "A step that fine needs more than 64 fraction bits.";
  const bits = `A step that fine needs ${fewest} fraction bits.`;
  if (!smallest) return `${bits} No word of at most 64 bits has them with this range.`;
  const { word, most } = smallest;
  const [low, high] = [least, greatest].map(text => readDecimal(text, word, fewest).bits);
  const name = `Fixed${word.toUpperCase()}<${fewest}>`;
  const spare = most > fewest ? ` It has room for up to ${most} fraction bits.` : "";
  return `${bits} The range is then ${low} to ${high} units, which takes ${bitsFor(low, high)} bits. ` +
    `The smallest word is ${word}: ${name}.${spare}`;
}

function addFormat({ word, most }, fewest) {
  const [, , step] = endsOf(word, most);
  const shortStep = step.replace(/^(0\.0*[1-9][0-9]{3})[0-9]+$/, "$1…");
  const isFine = fewest !== null && most >= fewest;
  const use = element("button", "Use");
  use.type = "button";
  use.setAttribute("aria-label", `Use ${word} with ${most} fraction bits in the operation above`);
  use.onclick = () => {
    byId("word").value = word;
    byId("fraction").value = most;
    showOperation();
    keep();
    byId("a").focus();
  };
  const action = document.createElement("td");
  action.append(use);
  addRow(byId("formats"), rowHead(word), element("td", most), valueCell(shortStep, `2^-${most}`),
    element("td", isFine ? "yes" : "no", isFine ? "good" : "error"), action);
}

/* A script */

let ran = { lines: [], result: { cause: null, line: 0, answers: [] } };
let firstShown = 0;

function showScript() {
  const typed = byId("script").value;
  const text = typed && !typed.endsWith("\n") ? typed + "\n" : typed;
  const lines = text.split("\n");
  if (lines[lines.length - 1] === "") lines.pop();
  ran = { lines, result: runScript(text) };
  firstShown = 0;
  const { cause, line, answers } = ran.result;
  const state = byId("script-state");
  if (cause === "memory") state.textContent = "The browser has not enough memory for this script.";
  else if (cause) state.textContent = stopText(cause, line);
  else state.textContent = answers.length === 1 ? "1 answer." : `${answers.length.toLocaleString("en")} answers.`;
  state.className = cause ? "error" : "good";
  if (cause && line > LINES_SHOWN) firstShown = Math.floor((line - 1) / LINES_SHOWN) * LINES_SHOWN;
  showLines();
}

const stopText = (cause, line) =>
  `Line ${line} stops the script: ${causeText(cause, line)}. The program then writes no answers.`;

const causeText = (cause, line) => line === 1 && cause === "syntax"
  ? "the first line is a word (i8 to u64), and the fraction bits of each register, such as i32 16 16" : CAUSES[cause];

function showLines() {
  const { lines } = ran;
  byId("answers").replaceChildren();
  const end = Math.min(firstShown + LINES_SHOWN, lines.length);
  for (let at = firstShown; at < end; at++) addLine(at);
  byId("pages").hidden = lines.length <= LINES_SHOWN;
  byId("previous").disabled = firstShown === 0;
  byId("next").disabled = end === lines.length;
  byId("shown").textContent = `Lines ${firstShown + 1} to ${end} of ${lines.length.toLocaleString("en")}`;
}

function addLine(at) {
  const { lines, result } = ran;
  const isCause = result.cause && at + 1 === result.line;
  const answer = at > 0 ? result.answers[at - 1] : null;
  const text = element("td", lines[at], "mono value");
  const bits = element("td", answer ? answer.bits : "", "mono value");
  const value = isCause ? causeCell(result.cause, at + 1)
    : valueCell(answer ? answerText(answer) : "", answer && answer.didNotFit ? "it did not fit, and wrapped" : "");
  if (isCause) text.className += " error";
  addRow(byId("answers"), rowHead(at + 1), text, bits, value);
}

const causeCell = (cause, line) =>
  element("td", `${cause.replaceAll("-", " ")}: ${causeText(cause, line)}`, "error value");

const answerText = answer => answer.value === null ? "None" : answer.value;

function turn(by) {
  firstShown = Math.max(0, Math.min(firstShown + by * LINES_SHOWN, ran.lines.length - 1));
  showLines();
}

/* A link that keeps what was typed */

const KEPT = ["word", "fraction", "a", "op", "b", "least", "greatest", "step", "script"];
const FIRST = {
  word: "i8", fraction: "4", a: "3.5", op: "mul", b: "2.8",
  least: "-3.3", greatest: "3.3", step: "0.001", script: EXAMPLES.first,
};

/** Writes what is typed into the address. Returns whether all of it has room there. */
function keep() {
  const typed = new URLSearchParams();
  for (const id of KEPT) if (byId(id).value !== FIRST[id]) typed.set(id, byId(id).value);
  let address = typed.toString();
  const hasRoom = address.length <= LONGEST_LINK;
  if (!hasRoom) {
    typed.delete("script");
    address = typed.toString();
  }
  try {
    history.replaceState(null, "", "#" + address);
  } catch {
    // A browser may limit how often an address changes.
  }
  return hasRoom;
}

function restore() {
  const typed = new URLSearchParams(location.hash.slice(1));
  if (!/^[0-9]+$/.test(typed.get("fraction"))) typed.delete("fraction");
  for (const id of KEPT) byId(id).value = typed.get(id) ?? FIRST[id];
  for (const id of ["word", "op"]) if (!byId(id).value) byId(id).value = FIRST[id];
  chooseExample();
}

/** Selects the example that the script is. */
function chooseExample() {
  const same = Object.keys(EXAMPLES).find(name => EXAMPLES[name] === byId("script").value);
  byId("example").value = same || "";
}

async function copyLink() {
  const hasRoom = keep();
  const part = hasRoom ? "" : " The script is too long for a link: the link has all but the script.";
  try {
    await navigator.clipboard.writeText(location.href);
    byId("copied").textContent = "The link is copied." + part;
  } catch {
    byId("copied").textContent = "The link is in the address bar." + part;
  }
}

/* Start */

let waiting;

function keepSoon() {
  byId("copied").textContent = "";
  clearTimeout(waiting);
  waiting = setTimeout(keep, 300);
}

function showAll() {
  showOperation();
  showRange();
  showScript();
}

function fillChoices() {
  for (const word of WORDS) byId("word").append(new Option(word));
  for (const [op, { sign }] of Object.entries(OPERATIONS)) byId("op").append(new Option(`${op}: ${sign}`, op));
  byId("example").append(new Option("your own", ""));
  for (const name of Object.keys(EXAMPLES)) byId("example").append(new Option(name.replaceAll("_", " "), name));
}

function listen() {
  const on = (ids, show) => {
    for (const id of ids) byId(id).addEventListener("input", () => { show(); keepSoon(); });
  };
  on(["word", "fraction", "a", "op", "b"], showOperation);
  on(["least", "greatest", "step"], showRange);
  on(["script"], () => { chooseExample(); showScript(); });
  on(["example"], () => {
    byId("script").value = EXAMPLES[byId("example").value] ?? byId("script").value;
    showScript();
  });
  for (const form of document.forms) form.addEventListener("submit", event => event.preventDefault());
  byId("to-script").onclick = () => { writeAsScript(); keepSoon(); };
  byId("previous").onclick = () => turn(-1);
  byId("next").onclick = () => turn(1);
  byId("copy").onclick = copyLink;
  addEventListener("hashchange", () => { restore(); showAll(); });
}

async function start() {
  const bytes = Uint8Array.from(atob(MODULE), letter => letter.charCodeAt(0));
  proved = (await WebAssembly.instantiate(bytes)).instance.exports;
  fillChoices();
  restore();
  listen();
  showAll();
}

addEventListener("error", () => {
  byId("failure").textContent = "The calculator stopped unexpectedly. Load the page again.";
});
start().catch(error => {
  byId("failure").textContent = `The calculator does not run in this browser: ${error.message}`;
});
