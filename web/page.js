"use strict";
// A display of stories: it speaks RemGlk's JSON over one WebSocket, and shows what it is told as text alone. menu.js
// has what stands before a game.

const MOST_PARAGRAPHS = 3000;
const KEYS = {
  ArrowLeft: "left", ArrowRight: "right", ArrowUp: "up", ArrowDown: "down", Enter: "return", Backspace: "delete",
  Delete: "delete", Escape: "escape", PageUp: "pageup", PageDown: "pagedown", Home: "home", End: "end",
};
const BUTTONS = [
  ["Space", " "], ["Return", "return"], ["Esc", "escape"], ["↑", "up"], ["↓", "down"], ["←", "left"],
  ["→", "right"],
];
const UNREACHED = "The gateway isn't reached. It is tried again.";
const FILES = { save: "saved game", transcript: "transcript", command: "command script", data: "file" };

let socket = null;
let game = null;        // what init says: begin, resume or watch; and what is known of the game
let gen = 0;            // the number of the update that is shown
let pending = null;     // the event that wasn't answered yet
let isSent = false;     // whether it was sent: it waits for the answer to a measure, which has a number too
let isArranging = false;
let wanted = [];        // the requests for input
let tries = 0;
let isFirst = false;    // whether the next update is the first of this connection
let measured = "";
const windows = new Map();
const past = [];

// A game begins and ends

function start(begun) {
  game = begun;
  gen = 0;
  pending = null;
  wanted = [];
  tries = 0;
  clearWindows();
  note("");
  $("menu").hidden = true;
  $("game").hidden = false;
  $("game-title").textContent = begun.title;
  $("about-open").hidden = Boolean(begun.watch);
  document.title = begun.title;
  connect();
}

function stop(text) {
  game = null;
  pending = null;
  disconnect();
  showMenu(text);
}

function clearWindows() {
  windows.clear();
  $("windows").replaceChildren();
  showInput([], null);
}

$("leave").onclick = () => stop("");
$("about-open").onclick = () => {
  const { game: name, key } = game.resume || {};
  if (!name) return;
  $("about-game").textContent = name;
  $("about-play").value = linkOf("play", name, key);
  $("about-watch").value = linkOf("watch", name, game.word);
  $("about").showModal();
};
for (const id of ["about-play", "about-watch"]) {
  $(id).onfocus = () => $(id).select();
  $(`${id}-copy`).onclick = () => {
    $(id).select();
    document.execCommand("copy");
  };
}
$("about-close").onclick = () => $("about").close();
$("about").onclose = () => focusInput();
$("end").onclick = () => {
  $("about").close();
  if (!pending) give({ type: "close", gen });
};

// The connection

function disconnect() {
  if (socket) {
    socket.onclose = socket.onmessage = null;
    socket.close();
    socket = null;
  }
}

function connect() {
  disconnect();
  socket = new WebSocket(`${location.protocol === "https:" ? "wss" : "ws"}://${location.host}/socket`);
  socket.onopen = () => {
    isFirst = true;
    isArranging = false;
    if (game) init();
  };
  socket.onmessage = (event) => take(JSON.parse(event.data));
  socket.onclose = () => {
    socket = null;
    tries += 1;
    if (game) note("The connection is lost. It is tried again; the game is kept.", true);
    else $("menu-note").textContent = UNREACHED;
    setTimeout(() => { if (!socket) connect(); }, Math.min(250 * 2 ** tries, 5000));
  };
}

function send(message) {
  if (socket && socket.readyState === WebSocket.OPEN) socket.send(JSON.stringify(message));
}

function init() {
  const { begin, resume, watch } = game;
  // What begins a game is given again word for word.
  const metrics = begin ? game.metrics = game.metrics || measure() : measure();
  measured = JSON.stringify(metrics);
  send({ type: "init", gen, metrics, ...(resume ? { resume } : begin ? { begin } : { watch }) });
}

/** Gives the story something, once; it is kept until it is answered. */
function give(event) {
  if (pending) return;
  pending = event;
  isSent = false;
  lockInput(true);
  if (!isArranging) sendPending();
}

function sendPending() {
  if (!isSent) pending.gen = gen;
  isSent = true;
  send(pending);
}

function take(message) {
  if (message.type === "menu") {
    showTitles(message.stories);
    if ($("menu-note").textContent === UNREACHED) $("menu-note").textContent = "";
  } else if (!game) {
    return;
  } else if (message.type === "begins") {
    Object.assign(game.begin, { game: message.game, key: message.key });
  } else if (message.type === "session") {
    seat(message);
  } else if (message.type === "update") {
    update(message);
  } else if (message.type === "note") {
    note(message.text, message.waits);
  } else if (message.type === "error") {
    refused(message);
  } else if (message.type === "anew") {
    gen = 0;
    clearWindows();
  } else if (message.type === "closed") {
    keep(withoutGame(game.resume.game, game.resume.key));
    stop("The game is ended.");
  }
}

function seat({ game: name, key, word }) {
  if (game.begin || !kept().some((one) => one.game === name && one.key === key)) {
    keep([{ game: name, key, title: game.title }, ...withoutGame(name, key)]);
  }
  game = { resume: { game: name, key }, title: game.title, word };
  note(`Game ${name}`);
}

function refused({ message, late }) {
  pending = null;
  if (gen === 0 || game.watch) {
    stop(`That can't be done: ${message}.`);
    return;
  }
  note(`${message}.`, true);
  lockInput(false);
  if (late) send({ type: "refresh" });
}

function note(text, isAlert = false) {
  $("note").textContent = text;
  $("note").classList.toggle("alert", Boolean(isAlert));
}

// What the story shows

function update(message) {
  tries = 0;
  const first = isFirst, hadPrompt = !$("file").hidden;
  isFirst = isArranging = false;
  if (first && game.watch) {
    // The last shows come again, of this game or of another one.
    gen = 0;
    clearWindows();
  }
  if (message.gen > gen) {
    if (gen && message.gen > gen + 1) aside("[The game went on elsewhere. What was said in between isn't shown.]");
    const given = pending;
    if (pending && isSent && message.gen > pending.gen) pending = null;
    gen = message.gen;
    if (message.windows) placeWindows(message.windows);
    for (const content of message.content || []) fill(content);
    if (given || first) note(game.resume ? `Game ${game.resume.game}` : "");
    showInput(message.input || [], message.specialinput || null);
    if (message.ended) showEnd(message.ended, message.why || message.ended);
  } else {
    if (message.windows) placeWindows(message.windows);
    if (first) note("The game goes on.");
    if (!pending) lockInput(false);
  }
  // A story that waits for a file's name takes no size: it is told the display's behind that.
  if (hadPrompt && $("file").hidden) measured = "";
  if (pending && (first || !isSent)) sendPending();
  else if (!pending && measured !== JSON.stringify(measure())) arrange();
}

function showEnd(ended, why) {
  const said = {
    quit: "The story is over.", closed: "The game is ended.",
    stuck: "The story waits for something that this host doesn't have, a timer perhaps. It can't go on.",
  };
  note(said[ended] || `The story broke off: ${why}. It can't go on.`, ended !== "quit");
}

function placeWindows(told) {
  const seen = new Set(told.map((one) => one.id));
  for (const [id, window] of windows) {
    if (!seen.has(id)) {
      window.box.remove();
      windows.delete(id);
    }
  }
  const buffers = told.filter((one) => one.type === "buffer");
  for (const one of told) {
    let window = windows.get(one.id);
    if (!window || window.type !== one.type) {
      if (window) window.box.remove();
      window = { type: one.type, box: document.createElement("div"), lines: [] };
      window.box.className = `window ${one.type}`;
      windows.set(one.id, window);
      $("windows").append(window.box);
    }
    const { box } = window;
    const isAtEnd = box.scrollHeight - box.scrollTop - box.clientHeight < lineHeight(box);
    for (const side of ["left", "top", "width", "height"]) box.style[side] = `${one[side]}px`;
    if (one.type === "grid") {
      fitGrid(window, one);
    } else {
      if (isAtEnd) box.scrollTop = box.scrollHeight;
      box.tabIndex = 0;
      box.setAttribute("role", "log");
      box.setAttribute("aria-live", one.id === buffers[0].id ? "polite" : "off");
      box.setAttribute("aria-label", one.id === buffers[0].id ? "Story text" : "More text");
    }
  }
  for (const { id, field } of wanted) if (field && windows.has(id)) fitField(field, windows.get(id).box);
}

/** A grid's letters are as large as its rectangle lets them be, at most as they are measured. Where they would
    be too small, a status line loses spaces, and a table is moved by its reader. */
function fitGrid(window, { gridwidth, gridheight, width, height }) {
  const size = charSize();
  const fits = Math.min(1, width / (gridwidth * size.width || 1), height / (gridheight * size.height || 1));
  const scale = Math.max(fits, gridheight > 3 ? 0.65 : 0.85);
  const { box } = window;
  window.room = gridheight > 3 ? Infinity : Math.max(Math.floor(width / (size.width * scale)) - 1, 1);
  for (const line of window.lines) showRow(window, line, line.dataset.row || "");
  box.style.fontSize = `${size.font * scale}px`;
  box.style.lineHeight = `${height / (gridheight || 1)}px`;
  box.classList.toggle("tall", gridheight > 3);
  box.setAttribute("role", "group");
  box.setAttribute("aria-label", gridheight > 3 ? "Table" : "Status");
  box.setAttribute("aria-live", gridheight > 3 ? "polite" : "off");
  while (window.lines.length < gridheight) {
    const line = document.createElement("div");
    window.lines.push(line);
    box.append(line);
  }
  for (const line of window.lines.splice(gridheight)) line.remove();
}

function fill({ id, lines, text, clear }) {
  const window = windows.get(id);
  if (!window) return;
  for (const { line, content } of lines || []) {
    const row = window.lines[line];
    if (row) showRow(window, row, (content || []).map((span) => span.text).join(""));
  }
  if (clear) window.box.replaceChildren();
  if (text) addText(window.box, text);
}

function showRow(window, row, text) {
  row.dataset.row = text;
  const shown = squeezed(text, window.room);
  if (row.textContent !== shown) row.textContent = shown;
}

/** The text with fewer spaces where it has more, so that it fits. */
function squeezed(text, room) {
  let shown = text.trimEnd();
  if (text.length <= room) return text;
  while (shown.length > room && / {2}/.test(shown)) {
    const longest = shown.match(/ {2,}/g).sort((one, other) => other.length - one.length)[0];
    shown = shown.replace(longest, longest.slice(1));
  }
  return shown;
}

function addText(box, paragraphs) {
  takeInputs(box);
  const before = box.lastElementChild ? box.scrollHeight : 0;
  for (const { append, content } of paragraphs) {
    const last = box.lastElementChild;
    const paragraph = append && last && last.tagName === "P" ? last : box.appendChild(document.createElement("p"));
    for (const span of content || []) paragraph.append(element("span", span.text, { className: span.style }));
  }
  while (box.childElementCount > MOST_PARAGRAPHS) box.firstElementChild.remove();
  box.scrollTop = Math.max(0, Math.min(box.scrollHeight - box.clientHeight, before - 2 * lineHeight(box)));
}

function lineHeight(box) {
  return parseFloat(getComputedStyle(box).lineHeight) || 24;
}

function aside(text) {
  const buffer = [...windows.values()].find((window) => window.type === "buffer");
  if (buffer) buffer.box.append(element("p", text, { className: "aside" }), document.createElement("p"));
}

// What the player gives

function takeInputs(box) {
  for (const input of box.querySelectorAll("input")) input.remove();
}

function showInput(requests, file) {
  const typed = new Map();
  for (const one of wanted) {
    const again = requests.find((new_one) => new_one.id === one.id && new_one.gen === one.gen && one.type === new_one.type);
    if (again && one.field) typed.set(one.id, one.field.value);
  }
  for (const window of windows.values()) takeInputs(window.box);
  wanted = requests;
  for (const one of requests) {
    if (one.type === "line" && windows.has(one.id)) showLine(one, typed.get(one.id));
  }
  const hasKeys = !file && requests.some((one) => one.type === "char");
  $("keys").hidden = !hasKeys;
  $("key").value = "";
  $("file").hidden = !file;
  if (file) {
    const kind = FILES[file.filetype] || "file";
    $("file-label").textContent = file.filemode === "read" ? `Name of the ${kind} to read` : `Name of the ${kind} to write`;
    $("file-name").value = "";
  }
  lockInput(Boolean(pending));
  focusInput();
}

function showLine(request, typed) {
  const { box, type, lines } = windows.get(request.id);
  const field = element("input", "", { type: "text", autocomplete: "off", spellcheck: false, maxLength: request.maxlen });
  field.setAttribute("aria-label", "What you do");
  field.setAttribute("autocapitalize", "off");
  field.setAttribute("enterkeyhint", "go");
  field.value = typed === undefined ? request.initial || "" : typed;
  field.onkeydown = (event) => typeLine(event, request, field);
  request.field = field;
  let place = box;
  if (type === "grid") place = lines[request.ypos] || box;
  else place = box.lastElementChild || box.appendChild(document.createElement("p"));
  place.append(field);
  fitField(field, box);
}

/** A line is as long as its window has room behind the prompt. */
function fitField(field, box) {
  field.style.width = "8ch";
  const room = box.clientWidth - field.offsetLeft - 16;
  field.style.width = `${room < 100 ? box.clientWidth - 32 : room}px`;
}

function typeLine(event, request, field) {
  if (event.isComposing) return;
  if (event.key === "Enter") {
    event.preventDefault();
    if (pending) return;
    if (field.value && past[past.length - 1] !== field.value) past.push(field.value);
    field.past = undefined;
    give({ type: "line", gen, window: request.id, value: field.value });
  } else if (event.key === "ArrowUp" || event.key === "ArrowDown") {
    event.preventDefault();
    const at = field.past === undefined ? past.length : field.past;
    field.past = Math.max(0, Math.min(past.length, at + (event.key === "ArrowUp" ? -1 : 1)));
    field.value = (past[field.past] || "").slice(0, request.maxlen);
  } else if (event.key === "PageUp" || event.key === "PageDown") {
    event.preventDefault();
    const { box } = windows.get(request.id);
    box.scrollBy(0, (event.key === "PageUp" ? -1 : 1) * 0.9 * box.clientHeight);
  }
}

function lockInput(isLocked) {
  for (const { field } of wanted) if (field) field.readOnly = isLocked;
}

function focusInput() {
  if ($("game").hidden || $("about").open) return;
  const line = wanted.find((one) => one.field);
  if (!$("file").hidden) $("file-name").focus();
  else if (line) line.field.focus({ preventScroll: true });
  else if (!$("keys").hidden) $("key").focus();
}

function giveKey(value) {
  const request = wanted.find((one) => one.type === "char");
  if (request && !pending) give({ type: "char", gen, window: request.id, value });
}

document.addEventListener("keydown", (event) => {
  if ($("game").hidden || $("about").open || event.ctrlKey || event.altKey || event.metaKey || event.isComposing) return;
  const { target } = event;
  const isBusy = target !== $("key") && target.closest("button, input, select, dialog");
  if (!$("keys").hidden && !isBusy) {
    const value = KEYS[event.key] || ([...event.key].length === 1 ? event.key : null);
    if (value) {
      event.preventDefault();
      giveKey(value);
    }
  } else if (!isBusy && event.key.length === 1) {
    focusInput();
  }
});
$("key").oninput = () => {
  const typed = [...$("key").value].pop();
  $("key").value = "";
  if (typed) giveKey(typed);
};
for (const [name, value] of BUTTONS) {
  const button = element("button", name, { type: "button" });
  button.setAttribute("aria-label", value === " " ? "Space" : value);
  button.onclick = () => giveKey(value);
  $("keys").append(button);
}
submits("file", () => giveFile($("file-name").value));
$("file-cancel").onclick = () => giveFile(null);

function giveFile(name) {
  give({ type: "specialresponse", gen, response: "fileref_prompt", value: name });
}

// The display's size

function charSize() {
  const box = $("measure");
  const { width, height } = box.getBoundingClientRect();
  return { width: width / 10, height, font: parseFloat(getComputedStyle(box).fontSize) };
}

function measure() {
  const { width, height } = charSize();
  const box = $("windows");
  return {
    width: box.clientWidth, height: box.clientHeight, charwidth: width, charheight: height,
    gridcharwidth: width, gridcharheight: height, gridmarginx: 0, gridmarginy: 0,
    buffercharwidth: width, buffercharheight: height, buffermarginx: 0, buffermarginy: 0,
    outspacingx: 0, outspacingy: 0, inspacingx: 0, inspacingy: 0,
  };
}

function arrange() {
  if (!game || !gen || pending || !socket || socket.readyState !== WebSocket.OPEN) return;
  const metrics = measure();
  if (metrics.width === 0 || JSON.stringify(metrics) === measured) return;
  measured = JSON.stringify(metrics);
  isArranging = true;
  send({ type: "arrange", gen, metrics });
}

let resized;
new ResizeObserver(() => {
  clearTimeout(resized);
  resized = setTimeout(arrange, 300);
}).observe($("windows"));

window.addEventListener("hashchange", followAddress);
if (!followAddress()) showMenu();
