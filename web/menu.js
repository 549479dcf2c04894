"use strict";
// What stands before a game: the games of this browser, links of games, and the menu. page.js has the games.

const GAMES = "storyhost.games";
const ROOM = { full: "full", away: "its host is away" };
const $ = (id) => document.getElementById(id);

// The games of this browser

function kept() {
  try {
    const games = JSON.parse(localStorage.getItem(GAMES) || "[]");
    return Array.isArray(games) ? games.map(withName) : [];
  } catch {
    return [];
  }
}

/** A game as it is kept; those of before had a session's number for a name. */
function withName(one) {
  return one.game === undefined ? { ...one, game: `host/${one.session}` } : one;
}

function keep(games) {
  try {
    localStorage.setItem(GAMES, JSON.stringify(games));
  } catch {
    note("This browser keeps nothing: keep the link under “This game”.", true);
  }
}

function withoutGame(game, key) {
  return kept().filter((one) => one.game !== game || one.key !== key);
}

function randomSeed() {
  const [high, low] = crypto.getRandomValues(new Uint32Array(2));
  return (high % 0x100000) * 0x100000000 + low;
}

// Links: what they name stands behind #, which no browser sends anywhere

function linkOf(kind, name, word) {
  return `${location.origin}${location.pathname}#${kind}/${name}/${word}`;
}

/** Goes where a link leads, if it is one of a game; whether it is. */
function follow(link) {
  const found = /#?(play|watch)\/([\w-]+\/\d+)\/([A-Za-z0-9]+)$/.exec(link);
  if (!found) return false;
  const [, kind, name, word] = found;
  if (kind === "watch") start({ watch: { game: name, word }, title: `Watching ${name}` });
  else resume(name, word);
  return true;
}

/** Follows the page's own address, and takes the link out of it. */
function followAddress() {
  const link = location.hash;
  if (!link) return false;
  history.replaceState(null, "", location.pathname);
  return follow(link);
}

// The menu

function element(name, text, parts = {}) {
  const made = document.createElement(name);
  made.textContent = text;
  Object.assign(made, parts);
  return made;
}

function showMenu(text = "") {
  $("menu").hidden = false;
  $("game").hidden = true;
  $("menu-note").textContent = text;
  document.title = "Stories";
  const games = kept();
  $("kept").hidden = games.length === 0;
  $("kept-games").replaceChildren(...games.map((one) => {
    const row = element("li", "");
    const go = element("button", `${one.title}, game ${one.game}`, { type: "button" });
    go.onclick = () => resume(one.game, one.key);
    const forget = element("button", "Forget", { type: "button" });
    forget.setAttribute("aria-label", `Forget ${one.title}, game ${one.game}`);
    forget.onclick = () => {
      keep(withoutGame(one.game, one.key));
      showMenu();
    };
    row.append(go, forget);
    return row;
  }));
  if (!socket) connect();
}

/** The lobby: each title, with how many games of it can be begun. A title that stays keeps its button, and so the
    focus. */
function showTitles(stories) {
  const list = $("titles");
  const rows = new Map([...list.children].map((row) => [row.dataset.title, row]));
  stories.forEach((story, at) => {
    const row = rows.get(story.title) || titleRow(story.title);
    const [begin, state] = row.children;
    begin.disabled = story.state !== "open";
    state.textContent = ROOM[story.state] || `${story.free} free`;
    if (list.children[at] !== row) list.insertBefore(row, list.children[at] || null);
  });
  while (list.children.length > stories.length) list.lastElementChild.remove();
}

function titleRow(title) {
  const row = element("li", "");
  row.dataset.title = title;
  const begin = element("button", title, { type: "button" });
  begin.onclick = () => start({ begin: { title, seed: randomSeed() }, title });
  row.append(begin, element("span", "", { className: "help" }));
  return row;
}

function submits(form, act) {
  $(form).onsubmit = (event) => {
    event.preventDefault();
    act();
  };
}

submits("link", () => {
  const link = $("link-text").value.trim();
  $("link-text").value = "";
  if (!follow(link)) $("menu-note").textContent = "That is no link of a game.";
});

function resume(name, key) {
  const known = kept().find((one) => one.game === name && one.key === key);
  start({ resume: { game: name, key }, title: known ? known.title : "Story" });
}
