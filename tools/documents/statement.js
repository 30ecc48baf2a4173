"use strict";
const MOST_FOUND = 40;
const articles = [...document.querySelectorAll("article")];
const byId = new Map(articles.map(article => [article.id, article]));
const nameOf = article => article.querySelector("h3").textContent;
const chapterOf = article => article.closest("section").querySelector("h2").textContent;
const wordsOf = article =>
  [...article.querySelectorAll(":scope > .words")].map(words => words.textContent).join(" ");

/** The article that a part of the address leads to, if it leads to one. */
function articleAt(hash) {
  const place = document.getElementById(decodeURIComponent(hash.slice(1)));
  return place && place.closest("article");
}

function leads(article, text) {
  const link = document.createElement("a");
  link.href = "#" + article.id;
  link.textContent = text || nameOf(article);
  return link;
}

// ---- the way from the calls, and back

const path = document.querySelector("#path"), back = document.querySelector("#back");
const seen = [];

function wayTo(article) {
  const found = [];
  for (let at = article; at; at = byId.get(at.dataset.up)) found.unshift(at);
  return found;
}

function showPath() {
  const article = articleAt(location.hash);
  path.hidden = !article;
  path.replaceChildren();
  if (article) {
    wayTo(article).forEach((one, place) => path.append(...(place ? [" \u203a "] : []), leads(one)));
    path.scrollLeft = path.scrollWidth;
  }
  document.documentElement.style.scrollPaddingTop =
    document.querySelector("header").offsetHeight + 8 + "px";
}

function moved() {
  if (seen.length > 1 && seen[seen.length - 2] === location.hash) seen.pop();
  else if (seen[seen.length - 1] !== location.hash) seen.push(location.hash);
  const last = seen.length > 1 && seen[seen.length - 2];
  back.hidden = seen.length < 2;
  const article = last && articleAt(last);
  const title = last && document.getElementById(last.slice(1));
  back.textContent = "\u2190 " + (article ? nameOf(article)
    : title && title.querySelector("h2") ? title.querySelector("h2").textContent : "top");
  showPath();
  const place = document.getElementById(decodeURIComponent(location.hash.slice(1)));
  if (place) (place.closest("article") || place).scrollIntoView();
}

back.addEventListener("click", () => history.back());
addEventListener("hashchange", moved);
addEventListener("load", moved); // after the browser's own move to the place of the address

// ---- all that a definition rests on

function restsOf(article) {
  const found = new Set(), todo = [article];
  while (todo.length) {
    for (const link of todo.pop().querySelectorAll(":scope > .rests > p:first-of-type a")) {
      const other = articleAt(link.hash);
      if (!found.has(other)) {
        found.add(other);
        todo.push(other);
      }
    }
  }
  return articles.filter(other => found.has(other));
}

function fillRests(details) {
  if (details.dataset.filled) return;
  details.dataset.filled = "yes";
  const chapters = new Map();
  for (const other of restsOf(details.closest("article"))) {
    const title = chapterOf(other);
    chapters.set(title, [...(chapters.get(title) || []), other]);
  }
  for (const [title, members] of [...chapters].reverse()) {
    const row = document.createElement("p");
    row.append(title + ": ");
    members.forEach((other, place) => row.append(...(place ? [", "] : []), leads(other)));
    details.append(row);
  }
}

document.addEventListener("toggle", event => {
  if (event.target.open && event.target.classList.contains("rests")) fillRests(event.target);
}, true);

// ---- the search

const input = document.querySelector("#search input"), list = document.querySelector("#found");
const texts = articles.map(article => ({
  article, name: nameOf(article).toLowerCase(), words: wordsOf(article).toLowerCase() }));

/** How well an article fits: its name before its words; nothing where a word is in neither. */
function fit(text, asked) {
  if (text.name === asked.join(" ")) return 0;
  if (asked.every(word => text.name.includes(word)))
    return text.name.startsWith(asked[0]) ? 1 : 2;
  return asked.every(word => text.name.includes(word) || text.words.includes(word)) ? 3 : null;
}

function search() {
  const asked = input.value.trim().toLowerCase().split(/\s+/).filter(word => word);
  list.hidden = asked.length === 0;
  input.setAttribute("aria-expanded", String(!list.hidden));
  const found = asked.length === 0 ? [] : texts
    .map(text => ({ text, rank: fit(text, asked) })).filter(one => one.rank !== null)
    .sort((one, other) => one.rank - other.rank);
  list.replaceChildren(...found.slice(0, MOST_FOUND).map(({ text }, place) => {
    const row = document.createElement("li"), link = leads(text.article);
    const small = document.createElement("small");
    small.textContent = wordsOf(text.article) || chapterOf(text.article);
    link.append(small);
    link.setAttribute("aria-selected", String(place === 0));
    row.append(link);
    return row;
  }));
  if (asked.length && found.length === 0) {
    const none = document.createElement("li");
    none.className = "none";
    none.textContent = "No definition has these words.";
    list.append(none);
  }
}

function choose(step) {
  const links = [...list.querySelectorAll("a")];
  const at = links.findIndex(link => link.getAttribute("aria-selected") === "true");
  const next = links[Math.min(links.length - 1, Math.max(0, at + step))];
  links.forEach(link => link.setAttribute("aria-selected", String(link === next)));
  if (next) next.scrollIntoView({ block: "nearest" });
}

input.addEventListener("input", search);
input.addEventListener("focus", search);
input.addEventListener("keydown", event => {
  const chosen = list.querySelector("[aria-selected=true]");
  if (event.key === "ArrowDown") choose(1);
  else if (event.key === "ArrowUp") choose(-1);
  else if (event.key === "Enter" && chosen) {
    list.hidden = true;
    input.blur();
    location.hash = chosen.hash;
  } else if (event.key === "Escape") list.hidden = true;
  else return;
  event.preventDefault();
});
document.addEventListener("click", event => {
  if (!event.target.closest("#search") || event.target.closest("#found a")) list.hidden = true;
});
addEventListener("keydown", event => {
  if (event.key === "/" && document.activeElement !== input) {
    event.preventDefault();
    input.select();
  }
});

moved();
