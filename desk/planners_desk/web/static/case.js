// The form of a case: what things, values, groups and words come to is drawn as one types. Each
// page works without it.
"use strict";

const WAIT = 350;       // milliseconds after a key until the preview is asked for
const LOOK = 700;       // between two looks at how far a forecast is
const form = document.getElementById("fields");
const state = document.body.dataset;
let timer = 0;
let wanted = 0;         // previews so far
state.wanted = state.drawn = "0";       // the page stands where they are the same

function typing(target) {
  return target !== null
    && (target.tagName === "TEXTAREA" || target.tagName === "INPUT" && target.type === "text");
}

// on a narrow page groups are folded, until somebody opens them; they say how much is ticked
const narrow = matchMedia("(max-width: 40rem)");

function fold(part, seen) {
  for (const one of part.querySelectorAll("details[data-fold]")) {
    const head = one.dataset.fold;
    one.open = seen.has(head) ? seen.get(head) : one.open && !narrow.matches;
  }
}

// what the server has drawn is put in place of what stood there, but for where somebody is typing
function put(page) {
  const active = document.activeElement;
  for (const part of document.querySelectorAll("[data-live]")) {
    const now = page.getElementById(part.id);
    if (!now || part.innerHTML === now.innerHTML) continue;
    if (part.contains(active) && typing(active)) continue;
    const open = [...part.querySelectorAll("details")].map(one => one.open);
    const folds = [...part.querySelectorAll("details[data-fold]")];
    const seen = new Map(folds.map(one => [one.dataset.fold, one.open]));
    part.replaceChildren(...now.childNodes);
    const details = [...part.querySelectorAll("details")];
    if (details.length === open.length) {
      details.forEach((one, place) => { one.open = one.open || open[place]; });
    }
    fold(part, seen);
  }
  marked(page);
  if (!active.isConnected) {
    const again = active.id ? document.getElementById(active.id)
      : document.querySelector(`[name="${active.name}"][value="${CSS.escape(active.value)}"]`);
    if (again) again.focus({preventScroll: true});
  }
}

// the fields around what is drawn anew are wrong, or are no longer
function marked(page) {
  for (const field of form.querySelectorAll("[id][aria-describedby]")) {
    const now = page.getElementById(field.id);
    if (now && now.hasAttribute("aria-invalid")) field.setAttribute("aria-invalid", "true");
    else if (now) field.removeAttribute("aria-invalid");
  }
}

function filled() {
  return new URLSearchParams(new FormData(form)).toString();
}

async function preview() {
  const mine = wanted;
  const sent = filled();
  try {
    const response = await fetch(form.dataset.preview, {
      method: "POST", cache: "no-store", body: sent,
      headers: {"Content-Type": "application/x-www-form-urlencoded"}});
    const text = response.ok ? await response.text() : "";
    if (mine !== wanted) return;
    if (text && filled() === sent) put(new DOMParser().parseFromString(text, "text/html"));
  } catch (error) {
    // the next change asks again
  }
  state.drawn = String(mine);
}

function soon(milliseconds) {
  wanted += 1;
  state.wanted = String(wanted);
  clearTimeout(timer);
  timer = setTimeout(preview, milliseconds);
}

// a last row that is filled in gets an empty one behind it
function longer(target) {
  const rows = target.closest("[data-rows]");
  const row = target.closest(".row");
  if (!rows || row !== rows.lastElementChild || !target.value) return;
  const next = row.cloneNode(true);
  const place = rows.children.length;
  for (const one of next.querySelectorAll("[id], [for], [name], [aria-describedby]")) {
    for (const name of ["id", "for", "name", "aria-describedby"]) {
      const value = one.getAttribute(name);
      if (value) one.setAttribute(name, value.replace(`-${place - 1}`, `-${place}`));
    }
    if (one.tagName === "INPUT") one.value = "";
    one.removeAttribute("aria-invalid");
  }
  for (const fault of next.querySelectorAll(".fault")) fault.remove();
  rows.append(next);
}

// a form that was saved stands where it stood
const PLACE = "desk " + location.pathname;

if (form) {
  fold(form, new Map());
  const place = sessionStorage.getItem(PLACE);
  sessionStorage.removeItem(PLACE);
  if (place !== null && !location.hash) scrollTo({top: Number(place), behavior: "instant"});
  form.addEventListener("submit", () => sessionStorage.setItem(PLACE, String(scrollY)));
  form.addEventListener("input", event => {
    longer(event.target);
    if (!/^(checkbox|radio|select-one)$/.test(event.target.type)) soon(WAIT);
  });
  form.addEventListener("change", () => soon(0));
}

// a value that is added is drawn at once; the Enter key in another row or field saves, as it does
// without this
if (form) form.addEventListener("click", event => {
  const add = event.target.closest("[data-add]");
  if (!add || document.activeElement.closest(".row") !== add.closest(".row")) return;
  event.preventDefault();
  soon(0);
});

// a line of the text that has a fault
addEventListener("click", event => {
  const link = event.target.closest("a[data-line]");
  if (!link) return;
  const text = document.getElementById("text-all");
  const lines = text.value.split("\n");
  const before = lines.slice(0, link.dataset.line - 1);
  const begin = before.reduce((sum, line) => sum + line.length + 1, 0);
  event.preventDefault();
  text.focus();
  text.setSelectionRange(begin, begin + (lines[link.dataset.line - 1] || "").length);
});

async function follow(part) {
  while (part.dataset.follow) {
    await new Promise(done => setTimeout(done, LOOK));
    try {
      const response = await fetch(part.dataset.follow, {cache: "no-store"});
      if (!response.ok) continue;
      const page = new DOMParser().parseFromString(await response.text(), "text/html");
      if (!page.querySelector("progress")) delete part.dataset.follow;
      part.replaceChildren(...page.body.childNodes);
    } catch (error) {
      // desk has ended, or this computer has slept
    }
  }
}

const reckoned = document.getElementById("forecast-live");
if (reckoned) follow(reckoned);
