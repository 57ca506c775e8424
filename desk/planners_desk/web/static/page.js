// Keys, one answer for one press, and pages that follow what is shown elsewhere. Each page works
// without it, but for the keys.
"use strict";

// milliseconds that a page stands before a key counts, so that none meant for the page before does
const LEAST = 200;
const PAUSE = 1000;     // between two looks at whether something else is shown by now
const BUSY = 300;       // the same where something takes a while
const body = document.body;
const began = performance.now();
let sent = false;

function typing(target) {
  return /^(INPUT|TEXTAREA|SELECT)$/.test(target.tagName) && target.type !== "checkbox";
}

addEventListener("keydown", event => {
  if (sent || event.repeat || typing(event.target)) return;
  if (event.ctrlKey || event.altKey || event.metaKey) return;
  if (performance.now() - began < LEAST) return;
  const key = event.key.toLowerCase();
  const buttons = [...document.querySelectorAll("button[data-key]")];
  const button = buttons.find(one => one.dataset.key === key);
  if (button) {
    event.preventDefault();
    button.click();
  }
});

// a form is sent once
addEventListener("submit", event => {
  if (sent) {
    event.preventDefault();
    return;
  }
  sent = true;
  body.setAttribute("aria-busy", "true");
});

// a page that comes out of the browser's history shows what stood there once
addEventListener("pageshow", event => {
  if (event.persisted) location.reload();
});

addEventListener("click", event => {
  if (event.target.closest("[data-print]")) print();
});

// no more cells than may be chosen
const chooser = document.querySelector("form[data-most]");
if (chooser) {
  chooser.addEventListener("change", () => {
    const boxes = [...chooser.querySelectorAll("input[type=checkbox]")];
    const full = boxes.filter(box => box.checked).length >= Number(chooser.dataset.most);
    for (const box of boxes) box.disabled = full && !box.checked;
  });
}

function later(milliseconds) {
  return new Promise(done => setTimeout(done, milliseconds));
}

function seen() {
  return document.hidden && new Promise(done => {
    document.addEventListener("visibilitychange", done, {once: true});
  });
}

function told(state) {
  const text = document.getElementById("text");
  const says = state.text + " ..";
  if (text && state.text && text.textContent !== says) text.textContent = says;
  const share = document.getElementById("share");
  if (share && state.share !== null) {
    share.max = 1;
    share.value = state.share;
  }
}

async function follow() {
  const lost = document.getElementById("lost");
  const busy = document.getElementById("share") !== null;
  for (;;) {
    await later(busy ? BUSY : PAUSE);
    await seen();
    if (sent) continue;
    let state;
    try {
      const response = await fetch(body.dataset.state, {cache: "no-store"});
      if (!response.ok) throw new Error(response.status);
      state = await response.json();
      lost.hidden = true;
    } catch (error) {
      lost.hidden = false;
      continue;
    }
    if (sent) continue;
    if (String(state.number) !== body.dataset.number || (busy && state.waits)) {
      location.replace(body.dataset.page);
      return;
    }
    told(state);
  }
}

if (body.dataset.state) follow();
