"use strict";
// The office's page. It asks the routes of the place that it comes from; everything that it shows is
// set as a text. Money is whole micro-units, kept in BigInt; moments are seconds since 1970, in UTC.

const at = id => document.getElementById(id);
const PARTS = ["Available", "Reserved", "Charged", "Expired"];
const NO_END = 4102444800, SVG = "http://www.w3.org/2000/svg";
// Buckets and charges that are drawn at once; the others come by a button.
const FIRST_BUCKETS = 6, BUCKETS = 40, CHARGES = 500, ALL_OPEN = 200;
const AGENT = "/office/agent", KEPT = "unanswered";
const REFUSALS = {
  O1: "the account is there already", O2: "there is no such account", O3: "there is no such voucher",
  O4: "the voucher is spent", O5: "the reference was used for something else",
  O6: "it would be over before it begins", O7: "the tariff book has no such group",
};
const CODES = {
  4010: "the account is barred", 4012: "there isn't enough", 5002: "no such session is open", 5004: "a value doesn't fit",
  5005: "a value is missing", 5012: "it wasn't done", 5030: "there is no such account",
  5031: "the tariff book has no such group",
};
const STATUSES = {
  401: "The office takes neither certificate nor password (401).", 404: "The office has nothing there (404).",
  408: "What was sent didn't come whole (408).", 413: "That is too long (413).",
  421: "The office isn't asked by this name (421).", 429: "Too much was asked at once (429). Wait a moment.",
};

// Who asks, the account that is shown, its month, and the command that was sent last.
let me = {Name: "", Role: "", Changes: false, Seconds: 70};
let asked = 0, account = "", balance = null, month = "", charges = [], toDate = {}, last = null, sums = null;
let hasLost = false, hasCovered = false, isBusy = false, hasAgent = false;

/** A fault that is told as it is. */
class Told extends Error {}

// Texts and elements.

function made(tag, name, ...children) {
  const element = document.createElement(tag);
  if (name) element.className = name;
  element.append(...children);
  return element;
}

function drawn(name, words, text) {
  const element = document.createElementNS(SVG, name);
  for (const [key, value] of Object.entries(words)) element.setAttribute(key, value);
  if (text !== undefined) element.textContent = text;
  return element;
}

const grouped = digits => digits.replace(/\B(?=(\d{3})+$)/g, ",");
const count = number => grouped(BigInt(number).toString());
const blocks = number => count(number) + (BigInt(number) === 1n ? " block" : " blocks");
const time = moment => Number(moment) >= NO_END ? "no end"
  : new Date(Number(moment) * 1000).toISOString().slice(0, 19).replace("T", " ");
const minute = moment => time(moment).slice(0, 16);
const total = (rows, part) => rows.reduce((sum, row) => sum + BigInt(row[part]), 0n);

/** An amount with two decimals, and more where it has them. */
function money(micro) {
  const value = BigInt(micro), digits = (value < 0n ? -value : value).toString().padStart(7, "0");
  const sign = value < 0n ? "-" : "";
  return sign + grouped(digits.slice(0, -6)) + "." + digits.slice(-6).replace(/0{1,4}$/, "");
}

/** Whole micro-units of a text like 5 or 1,234.50; null where it is none. */
function micro(text) {
  const found = /^([0-9]{1,10}|[0-9]{1,3}(?:,[0-9]{3})+)(?:[.]([0-9]{1,6}))?$/.exec(text.trim());
  if (!found) return null;
  const whole = BigInt(found[1].replaceAll(",", "")) * 1000000n;
  const value = whole + BigInt((found[2] || "").padEnd(6, "0"));
  return value > 0n && value <= 10n ** 15n ? value : null;
}

/** Says a line to whoever looks and whoever listens; a fault interrupts. */
function say(line, isFault = false) {
  at("told").textContent = isFault ? "" : line;
  at("fault").textContent = isFault ? line : "";
}

/** Says what became of a command. */
function sayDone(line, kind = "") {
  at("done").className = "told " + (kind === "good" ? "good" : "");
  at("done").textContent = kind === "fault" ? "" : line;
  at("refused").textContent = kind === "fault" ? line : "";
}

/** Draws the first rows, and a button that draws more; `wrap` puts it into what the place takes. */
function listed(place, rows, make, step, name, wrap = button => button, first = step) {
  let shown = 0;
  const button = made("button", "more"), holder = wrap(button);
  button.type = "button";
  const more = () => {
    const next = rows.slice(shown, shown + (shown ? step : first)).map(make), left = rows.length - shown - next.length;
    holder.remove();
    place.append(...next);
    shown += next.length;
    button.textContent = `Show ${count(Math.min(step, left))} more of ${count(left)} ${name}`;
    if (left > 0) place.append(holder);
  };
  button.addEventListener("click", () => { more(); fit(); });
  place.replaceChildren();
  more();
}

// Asking.

/** The answer of a route: its status, its text, and the id by which the log has it. */
async function ask(method, path, body, seconds = me.Seconds + 5, type = "application/json") {
  const words = {method, cache: "no-store", signal: AbortSignal.timeout(seconds * 1000)};
  if (body !== undefined) {
    words.headers = {"Content-Type": type};
    words.body = body;
  }
  try {
    const answer = await fetch(path, words);
    return {status: answer.status, text: await answer.text(), id: answer.headers.get("X-Request-Id"),
      isText: (answer.headers.get("Content-Type") || "").startsWith("text/plain")};
  } catch {
    throw new Told("The office can't be reached.");
  }
}

/** The object of a text; a whole number that a double doesn't keep is a BigInt. */
function object(text) {
  const whole = (key, value, source) => typeof value === "number" && !Number.isSafeInteger(value)
    && /^-?[0-9]+$/.test(source?.source || "") ? BigInt(source.source) : value;
  try { return Object(JSON.parse(text, whole)); } catch { return {}; }
}

/** Why an answer isn't what was asked for, as a sentence. */
function why(answer) {
  const told = object(answer.text), code = told["Result-Code"];
  if (told.Refusal) return `Refused: ${REFUSALS[told.Refusal] || "see the rules"} (${told.Refusal}).`;
  if (answer.status === 403) return `Refused: ${me.Name || "you"} may not do that here (403).`;
  if (told.fault) return `Refused: ${told.fault} (${answer.status}).`;
  if (answer.status >= 500) return `The office can't answer now (${answer.status}).`;
  if (STATUSES[answer.status]) return STATUSES[answer.status];
  if (told["Failed-AVP"] === "Requested-Service-Unit") return "The group counts in another kind of units.";
  const where = told["Failed-AVP"] ? ` (${told["Failed-AVP"]})` : "";
  if (code && code !== 2001) return `Refused: ${CODES[code] || "result code " + code}${where}.`;
  return `The office doesn't take this (${answer.status}).`;
}

/** What a read gives; raises what is to be told where it gives nothing. */
async function read(path) {
  const answer = await ask("GET", path);
  if (answer.status === 200 && answer.isText) return answer.text;
  const told = object(answer.text);
  if (answer.status === 200 && !told.Refusal) return told;
  throw Object.assign(new Told(why(answer)), {refusal: told.Refusal, status: answer.status});
}

/** Who asks here; what that one may not do isn't offered. */
async function learn() {
  me = await read("/office/me");
  const role = me.Changes ? me.Role : `${me.Role} who only reads`;
  at("who").textContent = me.Name === me.Role ? role : `${me.Name}, ${role}`;
  offer(may());
  at("agent").hidden = at("views").hidden = !isOperator();
}

const isOperator = () => me.Role === "operator";
/** What is offered: a shop redeems and asks for prices, an operator does all, who only reads nothing. */
const may = () => {
  const isAll = isOperator() && me.Changes;
  return {credit: isAll, allow: isAll, redeem: me.Changes, price: me.Changes, bar: isAll && hasAgent};
};

// An account's balance.

/** A bar of an amount's parts, with their names. */
function bar(row, written) {
  const sum = PARTS.reduce((sum, part) => sum + BigInt(row[part]), 0n);
  const pieces = made("div", "bar"), list = made("div", "parts");
  pieces.setAttribute("role", "img");
  pieces.setAttribute("aria-label", PARTS.map(part => `${part} ${written(row[part])}`).join(", "));
  for (const part of PARTS.filter(part => BigInt(row[part]) > 0n)) {
    const piece = made("span", part.toLowerCase());
    piece.style.width = Number(BigInt(row[part]) * 1000000n / sum) / 10000 + "%";
    pieces.append(piece);
    list.append(made("span", "", made("span", "key " + part.toLowerCase()), `${part} ${written(row[part])}`));
  }
  return [pieces, list];
}

function bucket(row) {
  const isBlocks = row.Unit === "blocks", written = isBlocks ? blocks : money;
  const name = made("h3", "", isBlocks ? `Allowance ${row.Number}` : `Bucket ${row.Number}`);
  const scope = row.Scope === undefined ? "all groups" : `group ${row.Scope}`;
  const words = [scope, `from ${minute(row.From)}`, row.Until >= NO_END ? "no end" : `until ${minute(row.Until)}`];
  const told = made("div", "bucket", made("div", "head", name, made("strong", "", written(row.Available))),
    ...bar(row, written), made("div", "parts", ...words.map(word => made("span", "", word))));
  told.dataset.bucket = row.Number;
  return told;
}

/** What is available first, then what lives by its end, then what is used up or over. */
function showBalance() {
  const rows = balance.Buckets, amounts = rows.filter(row => row.Unit !== "blocks");
  const isLive = row => row.Available + row.Reserved > 0;
  const sums = Object.fromEntries(PARTS.map(part => [part, total(amounts, part)]));
  const live = rows.filter(isLive), past = rows.filter(row => !isLive(row)).reverse();
  live.sort((one, other) => one.Until - other.Until || one.Number - other.Number);
  at("balance-title").textContent = `Account ${balance.Account}`;
  at("barred").hidden = !balance.Barred;
  at("available").textContent = money(sums.Available);
  at("total").replaceChildren(...(amounts.length ? bar(sums, money) : []));
  listed(at("live"), live, bucket, BUCKETS, "buckets", button => button, FIRST_BUCKETS);
  if (!live.length) at("live").append(made("p", "", rows.length ? "Nothing is left." : "Nothing was credited yet."));
  at("past-box").hidden = !past.length;
  at("past-box").open = false;
  at("past-box").ontoggle = () => { if (at("past-box").open) listed(at("past"), past, bucket, BUCKETS, "buckets"); };
  at("past").replaceChildren();
  at("past-count").textContent = `${count(past.length)} used up or over`;
  at("bar-told").textContent = balance.Barred ? "The account is barred: nothing more is granted."
    : "A barred account is granted nothing more: its sessions end with their next report.";
  at("bar-button").textContent = balance.Barred ? "Unbar" : "Bar";
}

// An account's month.

/** The charges of a statement's text, and its sums to date. */
function readStatement(text) {
  const lines = text.trimEnd().split("\n").map(line => line.trim().split(/ +/));
  const end = lines.findIndex(words => words[0] === "TOTAL");
  if (lines[0][0] !== "ACCOUNT" || end < 2) throw new Told("The statement isn't one that this page reads.");
  toDate = Object.fromEntries(lines.filter(words => words[1] === "TO").map(words => [words[0], words[3]]));
  charges = lines.slice(2, end).map(([moment, group, blocks, rated, collected, uncollected], number) =>
    ({number, day: time(moment).slice(0, 10), at: time(moment).slice(11), group, blocks, rated, collected, uncollected}));
}

/** The days of a month, and those beside it that the zone of the book counts into it. */
function daysOf(month, others) {
  const [year, number] = month.split("-").map(Number), last = new Date(Date.UTC(year, number, 0)).getUTCDate();
  const days = Array.from({length: last}, (_, at) => `${month}-${String(at + 1).padStart(2, "0")}`);
  return [...new Set([...days, ...others])].sort();
}

/** The months from the first bucket to now, and on to the one that is shown; the newest first. */
function monthsOf(...ends) {
  const [first] = ends.toSorted(), last = ends.toSorted().at(-1), months = [];
  for (let one = last; one >= first && months.length < 1200; one = monthAfter(one, -1)) months.push(one);
  return months;
}

function monthAfter(month, by) {
  const [year, number] = month.split("-").map(Number);
  return new Date(Date.UTC(year, number - 1 + by, 1)).toISOString().slice(0, 7);
}

/** Fills a choice of months. */
function pickMonths(place, months, chosen) {
  const words = {month: "long", year: "numeric", timeZone: "UTC"};
  place.replaceChildren(...months.map(one => Object.assign(
    made("option", "", new Date(one + "-01T00:00:00Z").toLocaleDateString("en", words)), {value: one})));
  place.value = chosen;
}

/** Steps of a chart's lines: four of them, or fewer where a part would be no whole unit. */
function stepOf(most, least) {
  let step = least;
  for (let turn = 0; most > step * 4n; turn++) step = turn % 3 === 1 ? step * 5n / 2n : step * 2n;
  return step;
}

/** A picture of amounts by day, each {day, main, lost}; its words say the same. */
function chartOf(days, written, least, wide) {
  const most = days.reduce((most, one) => one.main + one.lost > most ? one.main + one.lost : most, 0n);
  const step = stepOf(most, least), high = 220, room = high - 34;
  const left = 16 + 7 * Math.max(...[1n, 2n, 3n, 4n].map(line => written(step * line).length));
  const y = value => 10 + room - Number(value * 10000n / (step * 4n)) / 10000 * room;
  if (!most) return made("figure", "", made("figcaption", "", "Nothing in this month"));
  const picture = drawn("svg", {viewBox: `0 0 ${wide} ${high}`, "aria-hidden": "true"});
  for (let line = 0n; line <= 4n; line++) {
    picture.append(drawn("line", {class: "grid", x1: left, x2: wide, y1: y(step * line), y2: y(step * line)}));
    picture.append(drawn("text", {x: left - 8, y: y(step * line) + 4, "text-anchor": "end"}, written(step * line)));
  }
  const width = (wide - left - 8) / days.length, every = wide < 500 ? 10 : 5;
  days.forEach((one, place) => picture.append(...pieces(one, left + place * width, width, y, written),
    ...(place === 0 || (place + 1) % every === 0
      ? [drawn("text", {x: left + (place + .5) * width, y: high - 6, "text-anchor": "middle"}, Number(one.day.slice(8)))] : [])));
  const words = days.filter(one => one.main + one.lost > 0n).map(one =>
    `${one.day}: ${written(one.main)}${one.lost > 0n ? ` and ${written(one.lost)} uncollected` : ""}`);
  return made("figure", "", picture, ...keysOf(days), made("figcaption", "off", words.join("; ")));
}

/** What the two colours of a chart mean, where it has both. */
function keysOf(days) {
  if (!days.some(one => one.lost > 0n)) return [];
  const keys = [["main", "collected"], ["uncollected", "uncollected"]];
  return [made("div", "parts", ...keys.map(([kind, name]) => made("span", "", made("span", "key " + kind), name)))];
}

/** The pieces of a day's bar. */
function pieces(one, x, width, y, written) {
  return [[one.main, 0n, "main"], [one.lost, one.main, "uncollected"]].filter(([value]) => value > 0n).map(([value, from, name]) => {
    const piece = drawn("rect", {class: name, x: x + width * .15, width: width * .7, y: y(from + value), height: y(from) - y(from + value), rx: 2});
    piece.append(drawn("title", {}, `${one.day}: ${written(value)}${name === "main" ? "" : " uncollected"}`));
    return piece;
  });
}

/** Draws what each day of the month has of the chosen series. */
function drawMonth() {
  if (!month) return;
  const series = at("series").value || "money", isMoney = series === "money";
  const mine = isMoney ? charges : charges.filter(row => row.group === series), byDay = Map.groupBy(mine, row => row.day);
  const days = daysOf(month, byDay.keys()).map(day => {
    const rows = byDay.get(day) || [];
    return {day, main: total(rows, isMoney ? "collected" : "blocks"), lost: isMoney ? total(rows, "uncollected") : 0n};
  });
  const wide = Math.max(260, at("chart").clientWidth || 720);
  at("chart").replaceChildren(chartOf(days, isMoney ? money : count, isMoney ? 10000n : 1n, wide));
}

function showFigures(place, figures) {
  place.replaceChildren(...figures.map(([name, value, isMissing]) => {
    const told = made("dd", isMissing ? "missing" : "", value);
    told.dataset.figure = name;
    return made("div", "", made("dt", "", name), told);
  }));
}

function showMonth(path) {
  const groups = [...new Set(charges.map(row => row.group))].sort((one, other) => one - other), kept = at("series").value;
  const series = [["money", "money collected"], ...groups.map(one => [one, `blocks of group ${one}`])];
  at("series").replaceChildren(...series.map(([value, name]) => Object.assign(made("option", "", name), {value})));
  at("series").value = series.some(([value]) => value === kept) ? kept : "money";
  const lost = total(charges, "uncollected"), first = balance.Buckets.reduce((first, row) => Math.min(first, row.From), balance.Moment);
  pickMonths(at("month"), monthsOf(time(first).slice(0, 7), time(balance.Moment).slice(0, 7), month), month);
  drawMonth();
  const figures = [["Collected this month", money(total(charges, "collected"))], ["Uncollected", money(lost), lost > 0n],
    ["Charges", count(charges.length)], ["Collected to date", money(toDate.COLLECTED || 0)]];
  if (toDate.COVERED !== undefined) figures.push(["Covered by allowances to date", blocks(toDate.COVERED)]);
  showFigures(at("figures"), figures);
  hasLost = lost > 0n;
  hasCovered = false;
  showCharges();
  at("caption").textContent = `Charges of ${month} by day, the newest first`;
  at("chart-title").textContent = `${month} by day`;
  at("text").href = path;
  at("csv").hidden = true;
}

const sumsOf = rows => Object.fromEntries(["rated", "collected", "uncollected"].map(part => [part, total(rows, part)]));
const coveredOf = row => row.covered ? count(row.covered) : "";
const wholeRow = child => made("tr", "", Object.assign(made("td", "", child), {colSpan: 7}));

/** A row of the table of charges: its name, its group, its blocks and its money. */
function chargeRow(head, group, many, row, kind) {
  const cell = (text, name) => made("td", name || "", text), isLost = BigInt(row.uncollected) > 0n;
  const lost = cell(isLost ? money(row.uncollected) : "", isLost ? "lost missing" : "lost");
  head.scope = "row";
  lost.hidden = !hasLost;
  row.cell = cell(coveredOf(row), "covered");
  row.cell.hidden = !hasCovered;
  return made("tr", kind, head, cell(group), cell(many), row.cell, cell(money(row.rated), "wide-only"), cell(money(row.collected)), lost);
}

/** The charges by day, the newest first; a day opens and closes. */
function showCharges() {
  for (const part of at("charges").querySelectorAll("tbody, tfoot")) part.remove();
  const days = [...Map.groupBy(charges, row => row.day)].sort(([one], [other]) => one < other ? 1 : -1);
  const isAll = charges.length <= ALL_OPEN;
  at("charges").querySelector("th.lost").hidden = !hasLost;
  at("charges").querySelector("th.covered").hidden = !hasCovered;
  at("charges").append(...days.map(([day, rows], place) => dayOf(day, rows.toReversed(), isAll || place === 0)));
  if (!days.length) at("charges").append(made("tbody", "", wholeRow("No charge in this month.")));
  at("charges").append(made("tfoot", "", chargeRow(made("th", "", "Month"), "", "", sumsOf(charges), "")));
}

/** A day's rows, which its button shows and hides. */
function dayOf(day, rows, isOpen) {
  const button = made("button", "", day), body = made("tbody", "");
  const head = chargeRow(made("th", "", button), "", "", sumsOf(rows), "day");
  const clock = one => made("th", "", one.at.slice(0, 5), made("span", "seconds", one.at.slice(5)));
  const row = one => chargeRow(clock(one), one.group, count(one.blocks), one, "");
  const show = isShown => {
    button.setAttribute("aria-expanded", isShown);
    if (!isShown) return body.replaceChildren(head);
    listed(body, rows, row, CHARGES, "charges", wholeRow);
    body.prepend(head);
  };
  button.type = "button";
  button.addEventListener("click", () => { show(button.getAttribute("aria-expanded") !== "true"); button.focus(); });
  show(isOpen);
  return body;
}

// Commands.

/** A reference of this page's own: the day, and enough chance that none comes twice. */
function reference() {
  const bytes = crypto.getRandomValues(new Uint8Array(8));
  return `page-${new Date().toISOString().slice(0, 10)}-${[...bytes].map(one => one.toString(16).padStart(2, "0")).join("")}`;
}

// What each command is called, and what its answer says.
const COMMANDS = {
  credit: {title: words => `Credit of ${words.amount}`, done: (words, told) => `Credited ${words.amount} as bucket ${told.Bucket}`},
  allow: {title: words => `Allowance of ${words.blocks} of group ${words.group}`,
    done: (words, told) => `Gave ${words.blocks} of group ${words.group} as allowance ${told.Bucket}`},
  redeem: {title: words => `Voucher ${words.code}`, done: (words, told) => `Redeemed the voucher as bucket ${told.Bucket}`},
  end: {title: words => `End of session ${words.session}`, done: words => `Ended session ${words.session}`},
  open: {title: () => "Opening", done: words => `Opened ${words.account}`},
  bar: {title: () => "Bar", done: (words, told) => `Barred${waited(told)}`},
  unbar: {title: () => "Unbar", done: (words, told) => `Unbarred${waited(told)}`},
};
const waited = told => told.waited === undefined ? "" : `; others of its shard waited ${told.waited} seconds`;

/** The commands that have no answer yet; they outlive the page, so that a reload loses none. */
function unanswered() {
  try { return JSON.parse(sessionStorage.getItem(KEPT)) || []; } catch { return []; }
}
function keep(commands) {
  try { sessionStorage.setItem(KEPT, JSON.stringify(commands)); } catch { /* a browser without room keeps none */ }
  at("waiting").hidden = !commands.length;
  at("unanswered").replaceChildren(...commands.map(command => {
    const again = made("button", "main", "Send again"), leave = made("button", "", "Leave it");
    again.type = leave.type = "button";
    again.addEventListener("click", () => send(command));
    leave.addEventListener("click", () => keep(unanswered().filter(isOther(command))));
    return made("li", "", made("span", "", `${titleOf(command)} for account ${command.account}${command.reference ? `, reference ${command.reference}` : ""}`), again, leave);
  }));
}
const isOther = command => one => one.body !== command.body || one.path !== command.path;
const titleOf = command => COMMANDS[command.kind].title(command.words);

/** What an answer says of a command: it was done, it was refused, or nobody knows. */
function outcome(command, answer) {
  if (!answer || answer.status >= 500 || answer.status === 408) {
    return {kind: "unknown", line: "No answer. It may have been done: send the same again, it is done once."};
  }
  const told = object(answer.text), id = answer.id ? ` (request ${answer.id.slice(0, 8)})` : "";
  const isDone = told["Result-Code"] === 2001 || (command.path.startsWith(AGENT) && !told.Refusal && !told["Result-Code"]);
  if (answer.status === 200 && isDone) return {kind: "good", line: `${COMMANDS[command.kind].done(command.words, told)}${id}`};
  if (command.kind === "open" && told.Refusal === "O1") {
    return {kind: "good", line: `${command.account} is there${command.times > 1 ? "" : " already"} (O1)${id}`};
  }
  return {kind: "fault", line: `${titleOf(command)}: ${why(answer)}${command.kind === "redeem" ? aboutCodes(command, answer, told) : ""}${id}`};
}

/** What is said of a code beside its refusal. */
function aboutCodes(command, answer, told) {
  if (answer.status === 429) return " Codes that no voucher has count for a minute.";
  return told.Refusal === "O3" && !command.path.startsWith(AGENT) ? " Only the codes of this account's shard were looked at." : "";
}

/** Sends a command, which is kept until it has an answer, and says what became of it. */
async function send(command) {
  if (isBusy) return;
  busy(true);
  last = command;
  command.times = (command.times || 0) + 1;
  keep([...unanswered().filter(isOther(command)), command]);
  sayDone("Asking the office ..");
  let answer = null;
  try { answer = await ask(command.method, command.path, command.body, command.seconds); } catch (fault) {
    if (!(fault instanceof Told)) throw fault;
  }
  const told = outcome(command, answer);
  if (told.kind !== "unknown") keep(unanswered().filter(isOther(command)));
  if (told.kind === "good" && (command.account === account || command.kind === "open")) {
    await show(command.account, month);
    if (command.reference && at(command.kind).elements.reference.value === command.reference) renew(command.kind);
  }
  sayDone(told.line, told.kind === "good" ? "good" : "fault");
  if (at("do").hidden || at("sheet").hidden) say(told.line, told.kind !== "good");
  at("again").hidden = false;
  busy(false);
  counted("done");
}

function busy(is) {
  isBusy = is;
  for (const button of document.querySelectorAll("#do button.main, #open button, #again, #unanswered button, #agent-parts td > button")) button.setAttribute("aria-disabled", is);
}

/** Counts what is finished, for whoever drives the page. */
function counted(what) {
  document.body.dataset[what] = Number(document.body.dataset[what] || 0) + 1;
}

/** Empties a form, and gives it the next reference. */
function renew(kind) {
  const form = at(kind);
  form.reset();
  for (const field of form.elements) field.removeAttribute("aria-invalid");
  if (form.elements.reference && kind !== "redeem") form.elements.reference.value = reference();
}

/** A value of a form that isn't read: its field is marked, told and ready. */
function unread(form, name, line) {
  for (const field of form.elements) if (field.name) field.setAttribute("aria-invalid", field.name === name);
  form.elements[name].setAttribute("aria-describedby", "refused");
  sayDone(line, "fault");
  form.elements[name].focus();
  counted("done");
}

const isGroup = text => /^[0-9]{1,10}$/.test(text) && Number(text) <= 4294967295;
/** The end of a last day. */
const endOf = day => Date.parse(day + "T00:00:00Z") / 1000 + 86400;
/** Members that are there, as JSON; a BigInt is written whole. */
const json = members => "{" + Object.entries(members).filter(([, value]) => value !== undefined)
  .map(([name, value]) => `${JSON.stringify(name)}:${typeof value === "bigint" ? value : JSON.stringify(value)}`).join(",") + "}";

/** What is wrong with values that several forms have; null where nothing is. */
function wrongOf(form, needsGroup) {
  const {scope, reference, until} = form.elements;
  if ((needsGroup || scope.value) && !isGroup(scope.value)) return ["scope", needsGroup ? "An allowance is of one group." : "A group is a whole number."];
  if (until.validity.badInput) return ["until", "The last day isn't a day."];
  if (!/^[!-~]{1,64}$/.test(reference.value)) return ["reference", "A reference is 1 to 64 letters, digits or signs."];
  for (const field of form.elements) if (field.name) field.setAttribute("aria-invalid", "false");
  return null;
}

function sendCredit(form) {
  const {amount, until, scope, reference} = form.elements, value = micro(amount.value);
  if (value === null) return unread(form, "amount", "An amount is a number above 0 with at most six decimals.");
  const wrong = wrongOf(form, false);
  if (wrong) return unread(form, ...wrong);
  return send({kind: "credit", account, words: {amount: money(value)}, reference: reference.value, method: "POST",
    path: `/accounts/${account}/credits`, body: json({Amount: value, Reference: reference.value,
      Until: until.value ? endOf(until.value) : undefined, Scope: scope.value ? Number(scope.value) : undefined})});
}

function sendAllowance(form) {
  const {blocks: many, until, scope, reference} = form.elements, value = Number(many.value);
  if (!/^[0-9]{1,10}$/.test(many.value) || value < 1 || value > 1e9) return unread(form, "blocks", "Blocks are 1 to 1,000,000,000.");
  const wrong = wrongOf(form, true);
  if (wrong) return unread(form, ...wrong);
  return send({kind: "allow", account, words: {blocks: blocks(value), group: Number(scope.value)}, reference: reference.value, method: "POST",
    path: `/accounts/${account}/allowances`, body: json({Blocks: value, Scope: Number(scope.value), Reference: reference.value,
      Until: until.value ? endOf(until.value) : undefined})});
}

const codeOf = form => form.elements.code.value.replaceAll(/[ -]/g, "");

/** Whether the agent is away: it is asked for what it can't read, which changes nothing. A 503 to a command
    wouldn't say so, for a browser may have asked before by itself. */
async function isAway() {
  if (hasAgent) return false;
  try { return (await ask("POST", `${AGENT}/redeem`, "{}")).status === 503; } catch { return false; }
}

/** Redeems a voucher: by the agent, which asks all shards; where it is away, in the account's own. */
async function sendVoucher(form) {
  const code = codeOf(form), reference = `redeem-${code}`;
  if (!/^[0-9]{12}$/.test(code)) return unread(form, "code", "A code is 12 digits.");
  form.elements.code.setAttribute("aria-invalid", "false");
  if (isBusy) return;
  busy(true);
  sayDone("Asking the office ..");
  const words = {kind: "redeem", account, words: {code}, reference, method: "POST"};
  const own = {path: `/vouchers/${code}/redeem`, body: json({"Subscription-Id-Data": account, Reference: reference})};
  const any = {path: `${AGENT}/redeem`, body: json({Account: account, Code: code, Reference: reference}), seconds: 300};
  const isOwn = await isAway();
  busy(false);
  return send({...words, ...(isOwn ? own : any)});
}

function sendBar() {
  const kind = balance.Barred ? "unbar" : "bar";
  return send({kind, account, words: {}, method: "POST", path: `${AGENT}/${kind}/${account}`, body: "{}", seconds: 600});
}

/** Asks what units would cost, and whether the account can pay them; nothing is charged. */
async function askPrice(form) {
  const {scope, unit, count: many} = form.elements;
  if (!isGroup(scope.value)) return unread(form, "scope", "A group is a whole number.");
  if (!/^[0-9]{1,16}$/.test(many.value) || Number(many.value) < 1) return unread(form, "count", "Ask for 1 or more.");
  for (const field of form.elements) if (field.name) field.setAttribute("aria-invalid", "false");
  const service = {"Rating-Group": Number(scope.value), "Requested-Service-Unit": {[unit.value]: Number(many.value)}};
  const request = action => JSON.stringify({"Session-Id": reference(), "CC-Request-Type": 4, "CC-Request-Number": 0, "Requested-Action": action,
    "Subscription-Id": {"Subscription-Id-Type": 0, "Subscription-Id-Data": account}, "Multiple-Services-Credit-Control": [service]});
  if (isBusy) return;
  busy(true);
  at("again").hidden = true;
  sayDone("Asking the office ..");
  try {
    const answer = await ask("POST", "/ccr", request(3)), told = object(answer.text);
    if (answer.status !== 200 || told["Result-Code"] !== 2001) throw new Told("Price: " + why(answer));
    const can = object((await ask("POST", "/ccr", request(2))).text)["Check-Balance-Result"];
    const said = can === 0 ? "; the account can pay it" : can === 1 ? "; the account can't pay it" : "";
    sayDone(`It costs ${money(told["Cost-Information"]["Unit-Value"]["Value-Digits"])} without allowances${said}.`, "good");
  } catch (fault) {
    sayDone(fault instanceof Told ? fault.message : `This page failed: ${fault.message}`, "fault");
  }
  busy(false);
  counted("done");
}

// Tabs of what is offered.

const tabs = [...document.querySelectorAll('[role="tab"]')];
const offered = () => tabs.filter(tab => !tab.hidden);

/** Shows the tabs of what may be done, and none of the others. */
function offer(may) {
  for (const tab of tabs) tab.hidden = !may[tab.getAttribute("aria-controls")];
  at("do").hidden = !offered().length;
  const chosen = offered().find(tab => tab.getAttribute("aria-selected") === "true");
  choose(chosen || offered()[0]);
}

function choose(tab, isFocused = false) {
  for (const one of tabs) {
    one.setAttribute("aria-selected", one === tab);
    one.tabIndex = one === tab ? 0 : -1;
    at(one.getAttribute("aria-controls")).hidden = one !== tab;
  }
  if (isFocused) tab.focus();
}

function step(event) {
  const all = offered(), place = all.indexOf(event.currentTarget), by = {ArrowRight: 1, ArrowLeft: -1}[event.key];
  if (by) choose(all[(place + by + all.length) % all.length], true);
  if (event.key === "Home" || event.key === "End") choose(all.at(event.key === "Home" ? 0 : -1), true);
}

// What the office's agent tells, where the door has one.

/** A table of columns, each a title, a text of a row, and a kind of its cells. */
function columnsOf(rows, name, columns) {
  if (!rows.length) return made("p", "", `No ${name}.`);
  const body = made("tbody", "");
  const head = made("tr", "", ...columns.map(([title, , kind]) => title ? Object.assign(made("th", kind || "", title), {scope: "col"}) : made("td", "")));
  const cell = (one, [title, text, kind]) => {
    const told = made("td", kind || "", text(one));
    if (title) told.dataset.title = title;
    return told;
  };
  const row = one => made("tr", "", ...columns.map(column => cell(one, column)));
  const wrap = button => made("tr", "", Object.assign(made("td", "", button), {colSpan: columns.length}));
  listed(body, rows, row, 100, name, wrap);
  const table = made("table", "", made("thead", "", head), body), place = made("div", "scroll", table);
  table.setAttribute("aria-label", name);
  place.dataset.part = name;
  return place;
}

/** Stacks the rows of each table that is wider than its place. */
function fit() {
  for (const place of document.querySelectorAll(".scroll")) {
    place.classList.remove("stacked");
    place.classList.toggle("stacked", place.scrollWidth > place.clientWidth + 1);
  }
}

const heldOf = one => one.is_blocks ? `allowance ${one.bucket}: ${blocks(one.amount)}` : `bucket ${one.bucket}: ${money(one.amount)}`;

/** A button that ends a session by a termination without use: what it holds is free again. */
function endButton(session) {
  if (!me.Changes || !session.isFirst) return "";
  const button = made("button", "", "End"), number = session.last_number + 1;
  button.type = "button";
  button.setAttribute("aria-label", `End session ${session.session}`);
  const request = {"Session-Id": session.session, "CC-Request-Type": 3, "CC-Request-Number": number,
    "Subscription-Id": {"Subscription-Id-Type": 0, "Subscription-Id-Data": account}, "Multiple-Services-Credit-Control": []};
  button.addEventListener("click", () => send({kind: "end", account, words: {session: session.session}, method: "POST", path: "/ccr", body: JSON.stringify(request)}));
  return button;
}

const SESSIONS = [
  ["Session", one => one.session, "words"], ["Touched", one => time(one.touched)], ["Ends", one => time(one.ends)],
  ["Group", one => one.group ? String(one.group.rating_group) : ""], ["Used", one => one.group ? count(one.group.used) : "", "number"],
  ["Held", one => one.group ? one.group.held.map(heldOf).join(", ") : "", "words"], ["", endButton],
];
const LINES = [
  ["Time", one => time(one.moment)], ["Who", one => one.who], ["Asked", one => one.asked, "words"],
  ["Answered", one => one.answered, "words"], ["Request", one => one.id.slice(0, 8)],
];

/** Shows what the agent tells of the account, or that it tells nothing here. */
async function showAgent(mine) {
  let told = null, line = "";
  if (!isOperator()) return;
  try { told = await read(`${AGENT}/account/${account}?month=${month.replace("-", "")}`); } catch (fault) {
    line = `Open sessions, what covered a charge, the doors' log and bars are not here: ${fault.message}`;
  }
  if (mine !== asked) return;
  hasAgent = told !== null;
  offer(may());
  at("agent-none").textContent = line;
  at("agent-moment").textContent = told ? `as of ${time(told.as_of)}` : "";
  at("agent-parts").replaceChildren();
  if (told) showBehind(told);
  counted("behind");
}

const isLook = one => one.asked.startsWith("reading ") && one.answered === "answered";

/** The lines of the log, the newest first; looks that were answered come by a button. */
function logOf(lines) {
  const told = lines.filter(one => !isLook(one)), looks = lines.length - told.length;
  const place = made("div", "", columnsOf(told, "lines", LINES));
  if (!looks) return [place];
  const button = made("button", "more", `Show ${count(looks)} looks too`);
  button.type = "button";
  button.addEventListener("click", () => { place.replaceChildren(columnsOf(lines, "lines", LINES)); button.remove(); fit(); });
  return [place, button];
}

const field = text => text === "" || /[",\r\n]/.test(text) ? `"${text.replaceAll('"', '""')}"` : text;
/** Charges in the bytes of the program's export of a month. */
const csvOf = rows => ["moment,session,group,blocks,rated,collected,uncollected,covered", ...rows.map(one =>
  [one.moment, field(one.session), one.rating_group, one.blocks, one.rated, one.collected, one.uncollected, one.covered].join(","))].join("\n") + "\n";

/** Offers the charges as a file. */
function offerFile(rows) {
  URL.revokeObjectURL(at("csv").href);
  at("csv").href = URL.createObjectURL(new Blob([csvOf(rows)], {type: "text/csv"}));
  at("csv").download = `${account}-${month.replace("-", "")}.csv`;
  at("csv").hidden = false;
}

function showBehind(told) {
  offerFile(told.charges);
  const sessions = told.sessions.flatMap(one => one.groups.length
    ? one.groups.map((group, place) => ({...one, group, isFirst: place === 0})) : [{...one, isFirst: true}]);
  const more = told.lines_before ? `, ${count(told.lines_before)} older ones left out` : "";
  at("agent-parts").append(
    made("h3", "", "Open sessions"), columnsOf(sessions, "open sessions", SESSIONS),
    ...(me.Changes && sessions.length ? [made("p", "quiet", "An ended session holds nothing more. What its gateway reports of it afterwards isn't charged.")] : []),
    made("h3", "", `The doors' log since ${time(told.lines_since)}${more}`), ...logOf(told.lines.toReversed()));
  told.charges.forEach((one, place) => {
    const row = charges[place];
    if (!row || row.number !== place || row.group !== String(one.rating_group) || row.blocks !== String(one.blocks)) return;
    row.covered = one.covered;
    if (row.cell) row.cell.textContent = coveredOf(row);
  });
  fit();
  hasCovered = charges.some(row => row.covered);
  for (const one of at("charges").querySelectorAll(".covered")) one.hidden = !hasCovered;
}

// What is shown.

/** Shows an account; an answer that comes after another was asked for is dropped. */
async function show(wanted, wantedMonth) {
  const mine = ++asked;
  at("office").hidden = true;
  at("none").hidden = true;
  mark("to-account");
  const isNumber = /^[0-9]{1,15}$/.test(wanted);
  at("account").setAttribute("aria-invalid", !isNumber);
  if (!isNumber) {
    at("sheet").hidden = true;
    say("An account number is 1 to 15 digits.", true);
    at("account").focus();
    return learn().catch(() => null).finally(() => counted("shown"));
  }
  say("Asking the office ..");
  try {
    await learn();
    await showAccount(mine, wanted, wantedMonth);
  } catch (fault) {
    if (mine !== asked) return;
    at("sheet").hidden = true;
    at("none").hidden = fault.refusal !== "O2" || !may().credit;
    at("none-account").textContent = wanted;
    say(fault.refusal === "O2" ? `There is no account ${wanted} (O2).` : fault instanceof Told ? fault.message : `This page failed: ${fault.message}`, true);
  }
  counted("shown");
}

async function showAccount(mine, wanted, wantedMonth) {
  const found = await read(`/accounts/${wanted}`), shownMonth = wantedMonth || time(found.Moment).slice(0, 7);
  const path = `/accounts/${wanted}/statement/${shownMonth.replace("-", "")}`;
  let text = null, missing = "";
  try { text = await read(path); } catch (fault) { missing = fault.message; }
  if (mine !== asked) return;
  if (account !== wanted) clear();
  account = wanted;
  balance = found;
  showBalance();
  at("sheet").hidden = false;
  if (text !== null) {
    month = shownMonth;
    readStatement(text);
    showMonth(path);
  }
  at("month-side").hidden = text === null;
  at("sheet").classList.toggle("narrow", text === null);
  if (missing) return say(`The month isn't shown: ${missing}`, true);
  say(`As of ${time(found.Moment)}. Amounts are in the currency of the tariff book, days and times in UTC.`);
  showAgent(mine);
}

/** Forgets what another account's forms had. */
function clear() {
  for (const kind of ["credit", "allow", "redeem"]) renew(kind);
  at("price").reset();
  sayDone("");
  at("again").hidden = true;
  at("agent-parts").replaceChildren();
  at("agent-none").textContent = at("agent-moment").textContent = "";
}

/** Says which of the views is shown. */
function mark(id) {
  for (const one of at("views").children) one.removeAttribute("aria-current");
  at(id).setAttribute("aria-current", "page");
  at("to-account").href = "#" + account;
}

/** Shows what the agent tells of all accounts, of the shards and of the books. */
async function showOffice(wanted) {
  const mine = ++asked;
  for (const id of ["sheet", "none"]) at(id).hidden = true;
  mark("to-office");
  say("Asking the office ..");
  try { await learn(); } catch (fault) { say(fault.message, true); return counted("shown"); }
  const shownMonth = wanted || new Date().toISOString().slice(0, 7), faults = [];
  for (const [id, path, shown] of [["sums", `sums?month=${shownMonth.replace("-", "")}`, showSums], ["shards", "shards", showShards], ["books", "books", showBooks]]) {
    let told = null;
    try { told = await read(`${AGENT}/${path}`); } catch (fault) { faults.push([id, fault.message]); }
    if (mine !== asked) return;
    at(id).hidden = told === null;
    at("office").hidden = false;
    if (told) shown(told, shownMonth);
  }
  at("codes").hidden = at("books").hidden;
  at("office-none").hidden = !faults.length;
  at("office-none").textContent = [...Map.groupBy(faults, ([, why]) => why)].map(([why, rows]) => `Not here: ${rows.map(([id]) => id).join(", ")}. ${why}`).join(" ");
  fit();
  say("");
  counted("shown");
}

// The office's sums.

const summed = (rows, keys) => [...Map.groupBy(rows, row => JSON.stringify(keys.map(key => row[key]))).values()].map(mine => {
  const sums = ["charges", "blocks", "covered", "rated", "collected", "uncollected"].map(part => [part, total(mine, part)]);
  return {...Object.fromEntries(keys.map(key => [key, mine[0][key]])), ...Object.fromEntries(sums)};
});
const SUMS = [
  ["Charges", one => count(one.charges)], ["Blocks", one => count(one.blocks)], ["Covered", one => count(one.covered)],
  ["Rated", one => money(one.rated)], ["Collected", one => money(one.collected)], ["Uncollected", one => money(one.uncollected)],
].map(column => [...column, "number"]);
const BUCKET_SUMS = ["Credited", ...PARTS].map(part =>
  [part, one => one.kind === "money" ? money(one[part.toLowerCase()]) : blocks(one[part.toLowerCase()]), "number"]);

/** Draws what each day of the month has over all accounts, or over those of a group or a shard. */
function drawSums() {
  if (!sums) return;
  const [key, value] = at("sums-series").value.split(" "), rows = sums.charges.filter(row => !key || String(row[key]) === value);
  const byDay = Map.groupBy(rows, row => row.day), wide = Math.max(260, at("sums-chart").clientWidth || 720);
  const days = daysOf(sums.month, byDay.keys()).map(day => {
    const mine = byDay.get(day) || [];
    return {day, main: total(mine, "collected"), lost: total(mine, "uncollected")};
  });
  at("sums-chart").replaceChildren(chartOf(days, money, 10000n, wide));
}

function showSums(told, shownMonth) {
  sums = {...told, month: shownMonth};
  const groups = summed(told.charges, ["rating_group"]), shards = summed(told.charges, ["shard"]), kept = at("sums-series").value;
  const books = summed(told.charges, ["book"]).sort((one, other) => one.book - other.book);
  const series = [["", "all"], ...groups.map(one => [`rating_group ${one.rating_group}`, `group ${one.rating_group}`]), ...shards.map(one => [`shard ${one.shard}`, `shard ${one.shard}`])];
  at("sums-series").replaceChildren(...series.map(([value, name]) => Object.assign(made("option", "", name), {value})));
  at("sums-series").value = series.some(([value]) => value === kept) ? kept : "";
  const now = new Date().toISOString().slice(0, 7), lost = total(told.charges, "uncollected");
  pickMonths(at("sums-month"), monthsOf(monthAfter(now, -23), now, shownMonth), shownMonth);
  drawSums();
  showFigures(at("sums-figures"), [["Collected", money(total(told.charges, "collected"))], ["Uncollected", money(lost), lost > 0n],
    ["Charges", count(total(told.charges, "charges"))]]);
  at("sums-moment").textContent = `As of ${time(told.as_of)}. Amounts are in currency ${told.currency}, days are those of zone ${told.zone}.`;
  const kinds = [...Map.groupBy(told.buckets, row => row.kind)].map(([kind, rows]) =>
    ({kind, ...Object.fromEntries(["buckets", "credited", ...PARTS.map(part => part.toLowerCase())].map(part => [part, total(rows, part)]))}));
  at("sums-parts").replaceChildren(
    made("h3", "", "By day"), columnsOf(summed(told.charges, ["day"]).sort((one, other) => one.day < other.day ? 1 : -1), "charges", [["Day", one => one.day], ...SUMS]),
    made("h3", "", "By group"), columnsOf(groups, "charges by group", [["Group", one => String(one.rating_group)], ...SUMS]),
    made("h3", "", "By shard"), columnsOf(shards, "charges by shard", [["Shard", one => one.shard], ...SUMS]),
    ...(books.length > 1 ? [made("h3", "", "By tariff book"), columnsOf(books, "charges by book", [["Book", one => String(one.book)], ...SUMS])] : []),
    made("h3", "", "Buckets that began in this month"), columnsOf(kinds, "buckets", [["Kind", one => one.kind], ["Buckets", one => count(one.buckets), "number"], ...BUCKET_SUMS]));
}

// The shards and their books.

const known = (value, written) => value === null || value === undefined ? "-" : written(value);
const size = bytes => bytes < 1e6 ? `${(bytes / 1e3).toFixed(0)} kB` : bytes < 1e9 ? `${(bytes / 1e6).toFixed(1)} MB` : `${(bytes / 1e9).toFixed(1)} GB`;
const SHARDS = [
  ["Shard", one => one.shard], ["Unit", one => known(one.unit, String)],
  ["Answers", one => one.answers ? `in ${known(one.seconds, value => value.toFixed(3))} s` : "no"],
  ["Waiting", one => known(one.waiting, count)], ["Ahead", one => known(one.ahead, value => `${Math.round(value)} s`)],
  ["Database", one => known(one.bytes, size)], ["Log", one => known(one.log_bytes, size)], ["Room", one => known(one.room_bytes, size)],
  ["Copied", one => known(one.copied, time)], ["Read", one => known(one.read, time)], ["Swept", one => known(one.swept, time)],
];

function showShards(told) {
  at("shards-moment").textContent = `as of ${time(told.as_of)}`;
  at("shards-parts").replaceChildren(columnsOf(told.shards, "shards", SHARDS));
  if (!told.machines) return;
  const {votes, mirrored, lacking} = told.machines;
  const lines = [`Votes: ${votes.there} of ${votes.expected}, ${votes.is_majority ? "a majority" : "no majority"}.`,
    ...Object.entries(mirrored).map(([shard, isInStep]) => `Shard ${shard}: both copies are ${isInStep ? "the same" : "not the same"}.`),
    ...lacking.map(one => `This machine lacks: ${one}.`)];
  at("shards-parts").append(made("h3", "", "Two machines"), made("ul", "", ...lines.map(line => made("li", "", line))));
}

const tierOf = one => one.upto === null ? money(one.price) : `${money(one.price)} up to ${count(one.upto)}`;
const PRICES = [
  ["Group", one => String(one.rating_group)], ["Counts", one => one.unit], ["Block", one => count(one.block), "number"],
  ["Cycle", one => one.cycle], ["Period", one => one.period], ["Price of a block", one => one.tiers.map(tierOf).join(", then "), "words"],
];

/** The books that hold and those that come, with their prices; one shelf where all shards have the same. */
function showBooks(told) {
  at("books-moment").textContent = `as of ${time(told.as_of)}`;
  at("books-parts").replaceChildren(...told.shelves.flatMap(shelf => shelf.books.flatMap(book => {
    const since = book.starts_shown ? ` from ${book.starts_shown}` : "", where = told.shelves.length > 1 ? ` (shards ${shelf.shards.join(", ")} alone)` : "";
    const rows = book.groups.flatMap(group => group.prices.map(price => ({...group, ...price})));
    return [made("h3", "", `${book.holds ? "Holds" : "Comes"}${since}${where}`),
      made("p", "quiet", `Currency ${book.currency}, zone ${book.zone}`), columnsOf(rows, "groups", PRICES)];
  })));
}

const TRIALS = [
  ["Group", one => String(one.rating_group)], ["Period", one => one.period], ["Moment", one => time(one.moment)],
  ["Blocks", one => count(one.blocks), "number"], ["Now", one => known(one.old, money), "number"], ["Then", one => known(one.new, money), "number"],
];

/** Sends a form's file, and shows what is told of it, or why nothing is. */
async function sendFile(form, path, type, shown) {
  const [file] = form.elements.file.files, id = form.id;
  const tell = (line, isFault, kind = "") => {
    at(id + "-done").className = `told ${kind}`;
    at(id + "-done").textContent = isFault ? "" : line;
    at(id + "-refused").textContent = isFault ? line : "";
  };
  at(id + "-parts").replaceChildren();
  try {
    if (!file) throw new Told("Choose a file.");
    if (file.size > 65536) throw new Told("A file has at most 65,536 bytes here.");
    tell("Asking the office ..", false);
    const answer = await ask("POST", path(), await file.text(), 300, type);
    if (answer.status !== 200) throw new Told(why(answer));
    const {line, isFault = false, table} = shown(object(answer.text));
    tell(line, isFault, "good");
    at(id + "-parts").append(table);
    fit();
  } catch (fault) {
    tell(fault instanceof Told ? fault.message : `This page failed: ${fault.message}`, true);
  }
  counted("done");
}

function sendTrial(form) {
  const path = () => {
    if (!form.elements.from.value) throw new Told("From which moment on?");
    return `${AGENT}/trial?from=${form.elements.from.value}`;
  };
  return sendFile(form, path, "application/toml", told =>
    ({line: `The book may follow ${told.from_shown} on; the prices are in currency ${told.currency}.`, table: columnsOf(told.prices, "prices", TRIALS)}));
}

const FAULTS = [["Code", one => one.code || "the whole file"], ["What stands against it", one => one.fault, "words"]];

function sendCheck(form) {
  return sendFile(form, () => `${AGENT}/vouchers/check`, "text/csv", told => {
    const more = told.faults_left_out ? `, ${count(told.faults_left_out)} more left out` : "";
    const line = told.good ? `${count(told.codes)} codes: ${count(told.new)} new, ${count(told.present)} there already. Shard ${told.shard} would get them.`
      : `This file may not be imported: ${count(told.faults.length)} faults${more}.`;
    return {line, isFault: !told.good, table: told.good ? "" : columnsOf(told.faults, "faults", FAULTS)};
  });
}

// From the page's address to what is shown: ACCOUNT, ACCOUNT/YYYYMM, office, office/YYYYMM.

function follow() {
  let text = location.hash.slice(1);
  try { text = decodeURIComponent(text); } catch { /* it is shown as it is */ }
  if (!text) return begun();
  const [first, second = ""] = text.split("/"), shown = /^[0-9]{6}$/.test(second) ? `${second.slice(0, 4)}-${second.slice(4)}` : "";
  if (first === "office") return showOffice(shown);
  at("account").value = first;
  return show(first, shown);
}

/** The page before anything was asked for. */
function begun() {
  asked++;
  for (const id of ["sheet", "none", "office"]) at(id).hidden = true;
  mark("to-account");
  say("");
  return learn().catch(fault => say(fault.message, true)).finally(() => counted("shown"));
}

/** Goes to an address, also to the one that is shown. */
function go(hash) {
  if (location.hash === hash) follow();
  else location.hash = hash;
}

const turn = (place, prefix) => go(`#${prefix}/${at(place).value.replace("-", "")}`);

/** Chooses the month before or after in a choice of months, which may not have it yet. */
function turned(place, prefix, by) {
  const wanted = monthAfter(at(place).value, by);
  go(`#${prefix}/${wanted.replace("-", "")}`);
}

/** What a form sends once its button is pressed. */
const FORMS = {
  ask: () => go("#" + encodeURIComponent(at("account").value.trim()) + keptMonth()),
  credit: sendCredit, allow: sendAllowance, redeem: sendVoucher, price: askPrice, bar: sendBar, trial: sendTrial, check: sendCheck,
  open: () => send({kind: "open", account: at("none-account").textContent, words: {account: at("none-account").textContent},
    method: "PUT", path: `/accounts/${at("none-account").textContent}`, body: ""}),
};
const keptMonth = () => month && month !== time(balance.Moment).slice(0, 7) ? `/${month.replace("-", "")}` : "";

function begin() {
  for (const [id, act] of Object.entries(FORMS)) {
    at(id).addEventListener("submit", event => { event.preventDefault(); act(at(id)); });
  }
  for (const tab of tabs) {
    tab.type = "button";
    tab.addEventListener("click", () => choose(tab));
    tab.addEventListener("keydown", step);
  }
  at("redeem").elements.code.addEventListener("input", () => { at("redeem").elements.reference.value = `redeem-${codeOf(at("redeem"))}`; });
  at("again").addEventListener("click", () => send(last));
  at("month").addEventListener("change", () => turn("month", account));
  at("before").addEventListener("click", () => turned("month", account, -1));
  at("after").addEventListener("click", () => turned("month", account, 1));
  at("sums-month").addEventListener("change", () => turn("sums-month", "office"));
  at("sums-before").addEventListener("click", () => turned("sums-month", "office", -1));
  at("sums-after").addEventListener("click", () => turned("sums-month", "office", 1));
  at("series").addEventListener("change", drawMonth);
  at("sums-series").addEventListener("change", drawSums);
  addEventListener("resize", () => { drawMonth(); drawSums(); fit(); });
  addEventListener("hashchange", follow);
  keep(unanswered());
  follow();
}

begin();
