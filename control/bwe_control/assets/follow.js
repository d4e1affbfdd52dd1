"use strict";

// Asks each second whether another table is posted, and puts it in place of the one that is shown.
// What is shown stays where there is no answer, under a notice that says since when.
(() => {
  const EACH = 1000, PATIENCE = 10000;
  let token = document.getElementById("follow").dataset.token, shownAt = new Date();

  const notice = (text) => {
    const line = document.getElementById("notice");
    line.hidden = !text;
    line.textContent = text;
  };

  // What the reader has typed, ticked, opened and sorted by; the same in the next table.
  const remember = () => ({
    fields: [...document.querySelectorAll("section[id] input")].map((input) =>
      [input.closest("section").id, input.type, input.value, input.checked]),
    open: [...document.querySelectorAll("section[id] details[open]")].map((it) => it.closest("section").id),
    sorted: [...document.querySelectorAll("th[aria-sort]")].map((it) =>
      [it.closest("section").id, it.cellIndex, it.getAttribute("aria-sort")]),
  });

  const restore = (state) => {
    for (const [section, type, value, checked] of state.fields) {
      const input = document.querySelector(`#${section} input[type=${type}]`);
      if (!input) continue;
      input.value = value;
      input.checked = checked;
      input.dispatchEvent(new Event("input"));
    }
    for (const section of state.open)
      document.querySelectorAll(`#${section} details`).forEach((it) => { it.open = true; });
    for (const [section, column, order] of state.sorted) {
      const heading = document.querySelectorAll(`#${section} th`)[column];
      const button = heading && heading.querySelector("button");
      for (let press = 0; button && press < 2 && heading.getAttribute("aria-sort") !== order; press++) button.click();
    }
  };

  const show = (text) => {
    const next = new DOMParser().parseFromString(text, "text/html"), state = remember();
    const focus = document.activeElement && document.activeElement.type === "search"
      ? document.activeElement.closest("section").id : "";
    document.querySelector("main").replaceWith(document.adoptNode(next.querySelector("main")));
    document.title = next.title;
    const script = document.createElement("script");
    script.textContent = [...next.scripts].filter((it) => it.id !== "follow").map((it) => it.textContent).join("\n");
    document.body.append(script);
    script.remove();
    restore(state);
    if (focus) document.querySelector(`#${focus} input[type=search]`).focus();
  };

  const ask = async () => {
    const stop = new AbortController(), timer = setTimeout(() => stop.abort(), PATIENCE);
    try {
      const answer = await fetch(`table?after=${encodeURIComponent(token)}`, { signal: stop.signal, cache: "no-store" });
      if (!answer.ok) throw new Error(answer.status);
      const given = await answer.json();
      if (given.page !== null) {
        show(given.page);
        token = given.token;
      }
      const standing = document.getElementById("standing");
      if (standing) standing.innerHTML = given.standing;
      notice(given.notice);
      shownAt = new Date();
    } catch {
      notice(`There is no answer since ${shownAt.toLocaleTimeString()}; the last table is shown.`);
    }
    clearTimeout(timer);
    setTimeout(ask, EACH);
  };
  ask();
})();
