"use strict";

// Sorts a table by the column of a heading, numbers by their value, and turns the order on a second press.
function sortBy(heading) {
  const table = heading.closest("table"), body = table.tBodies[0];
  const column = [...heading.parentNode.children].indexOf(heading);
  const first = heading.classList.contains("n") ? "descending" : "ascending";
  const other = first === "ascending" ? "descending" : "ascending";
  const order = heading.getAttribute("aria-sort") === first ? other : first;
  for (const each of heading.parentNode.children) each.removeAttribute("aria-sort");
  heading.setAttribute("aria-sort", order);
  const key = (row) => {
    const cell = row.cells[column];
    return "v" in cell.dataset ? Number(cell.dataset.v) : cell.textContent.trim();
  };
  const compare = (a, b) =>
    typeof a === "number" && typeof b === "number" ? a - b : String(a).localeCompare(String(b), "en", { numeric: true });
  const sign = order === "ascending" ? 1 : -1;
  body.append(...[...body.rows].sort((a, b) => sign * compare(key(a), key(b))));
}

// Shows the rows of a table that have the words of its field, and only held ones where that is asked.
function filter(section) {
  const field = section.querySelector("input[type=search]"), box = section.querySelector("input[type=checkbox]");
  const words = field.value.toLowerCase().split(/\s+/).filter(Boolean);
  for (const row of section.querySelectorAll("tbody tr")) {
    const text = row.textContent.toLowerCase();
    row.hidden = !words.every((word) => text.includes(word)) || (box && box.checked && !("held" in row.dataset));
  }
}

// Shows some links of the maps alone, or all where there are none.
function show(names) {
  const wanted = new Set(names);
  for (const map of document.querySelectorAll(".map")) {
    map.classList.toggle("dim", wanted.size > 0);
    for (const part of map.querySelectorAll("[data-link]")) part.classList.toggle("on", wanted.has(part.dataset.link));
  }
}

// Makes a button of a heading by which rows can be sorted.
function makeSortable(heading) {
  const button = document.createElement("button");
  button.type = "button";
  button.textContent = heading.textContent;
  button.addEventListener("click", () => sortBy(heading));
  heading.replaceChildren(button);
}

document.querySelectorAll("th:not(.plain)").forEach(makeSortable);
document.querySelectorAll("section .tools").forEach((tools) => { tools.hidden = false; });
document.querySelectorAll("section .tools input").forEach((input) =>
  input.addEventListener("input", () => filter(input.closest("section"))));
document.querySelectorAll("tr[data-links]").forEach((row) => {
  const names = row.dataset.links.split(" ").filter(Boolean);
  row.addEventListener("mouseenter", () => show(names));
  row.addEventListener("mouseleave", () => show([]));
});
document.querySelectorAll(".map .link").forEach((link) => link.addEventListener("click", () => {
  const row = document.getElementById("link-" + link.dataset.link);
  document.querySelectorAll("tr.marked").forEach((each) => each.classList.remove("marked"));
  row.classList.add("marked");
  row.scrollIntoView({ block: "center" });
}));
