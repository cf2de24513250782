"use strict";
// Sorts and filters tables, opens what a link leads to, tells how old the page is, and moves the picture. Without it the page has all the same.
const text = (cell) => cell.dataset.v ?? cell.textContent.trim();
const compare = (a, b) => {
  const [one, other] = [a, b].map((word) => parseFloat(word.replaceAll(",", "")));
  return isNaN(one) || isNaN(other) || /^\d+\.\d+\.\d/.test(a) ? a.localeCompare(b, "en", { numeric: true }) : one - other;
};

function sortBy(table, place, head) {
  const down = head.getAttribute("aria-sort") === "ascending";
  for (const other of table.tHead.rows[0].cells) other.removeAttribute("aria-sort");
  head.setAttribute("aria-sort", down ? "descending" : "ascending");
  const rows = [...table.tBodies[0].rows];
  rows.sort((a, b) => (down ? -1 : 1) * compare(text(a.cells[place]), text(b.cells[place])));
  table.tBodies[0].append(...rows);
}

for (const table of document.querySelectorAll("table.cards")) {
  [...table.tHead.rows[0].cells].forEach((head, place) => {
    if (!head.textContent.trim() || head.classList.contains("bars")) return;
    const button = document.createElement("button");
    button.type = "button";
    button.textContent = head.textContent;
    button.addEventListener("click", () => sortBy(table, place, head));
    head.replaceChildren(button);
  });
}

function addFilter(before, rows, what) {
  const field = document.createElement("input");
  field.type = "search";
  field.className = "filter";
  field.placeholder = "filter " + what;
  field.setAttribute("aria-label", field.placeholder);
  field.addEventListener("input", () => {
    const word = field.value.toLowerCase();
    for (const row of rows()) row.hidden = !row.textContent.toLowerCase().includes(word);
  });
  before.before(field);
}

for (const table of document.querySelectorAll("table.cards, table.matrix"))
  if (table.tBodies[0].rows.length > 12)
    addFilter(table.parentElement, () => table.tBodies[0].rows, table.dataset.what || "rows");
for (const list of document.querySelectorAll(".failures"))
  if (list.children.length > 12) addFilter(list, () => list.children, "failures");

function reveal() {
  const place = document.getElementById(decodeURIComponent(location.hash.slice(1)));
  if (!place) return;
  for (let each = place; each; each = each.parentElement) if (each.tagName === "DETAILS") each.open = true;
  place.scrollIntoView();
}
addEventListener("hashchange", reveal);
if (location.hash) reveal();

const made = document.querySelector("time"), ago = document.createElement("b");
function tellAge() {
  const minutes = Math.floor((Date.now() - Date.parse(made.dateTime)) / 60000);
  ago.textContent = minutes < 1 ? "" : minutes < 120 ? ` (${minutes} min ago)` : ` (${Math.floor(minutes / 60)} hours ago)`;
}
made.after(ago);
tellAge();
setInterval(tellAge, 30000);

const frame = document.querySelector(".picture"), svg = frame && frame.querySelector("svg");
if (svg) {
  const whole = svg.viewBox.baseVal, start = [whole.x, whole.y, whole.width, whole.height];
  let [x, y, width, height] = start;
  const show = () => svg.setAttribute("viewBox", [x, y, width, height].join(" "));
  const scale = () => Math.max(width / svg.clientWidth, height / svg.clientHeight);
  const zoom = (by, atX = 0.5, atY = 0.5) => {
    const to = Math.min(Math.max(width * by, start[2] / 60), start[2] * 1.5) / width;
    x += width * (1 - to) * atX;
    y += height * (1 - to) * atY;
    width *= to;
    height *= to;
    show();
  };
  const move = (right, down) => { x += right; y += down; show(); };
  const reset = () => { [x, y, width, height] = start; show(); };
  const deeds = { "+": () => zoom(0.7), "=": () => zoom(0.7), "-": () => zoom(1 / 0.7), 0: reset,
    ArrowLeft: () => move(-width / 8, 0), ArrowRight: () => move(width / 8, 0),
    ArrowUp: () => move(0, -height / 8), ArrowDown: () => move(0, height / 8) };
  const bar = document.createElement("div");
  bar.className = "tools";
  for (const [label, deed, name] of [["+", "+", "nearer"], ["\u2212", "-", "farther"], ["the whole", "0", "the whole picture"]]) {
    const button = document.createElement("button");
    button.type = "button";
    button.textContent = label;
    button.setAttribute("aria-label", name);
    button.addEventListener("click", deeds[deed]);
    bar.append(button);
  }
  bar.append("drag to move; + and \u2212, arrows and 0 on the keyboard; the wheel with Ctrl");
  frame.before(bar);
  frame.classList.add("moving");
  frame.tabIndex = 0;
  frame.addEventListener("keydown", (event) => {
    if (!deeds[event.key] || event.ctrlKey || event.metaKey) return;
    event.preventDefault();
    deeds[event.key]();
  });
  frame.addEventListener("wheel", (event) => {
    if (!event.ctrlKey) return;
    event.preventDefault();
    const box = svg.getBoundingClientRect();
    zoom(event.deltaY > 0 ? 1.15 : 1 / 1.15, (event.clientX - box.left) / box.width, (event.clientY - box.top) / box.height);
  }, { passive: false });
  const fingers = new Map();
  frame.addEventListener("pointerdown", (event) => { fingers.set(event.pointerId, event); });
  frame.addEventListener("pointermove", (event) => {
    const last = fingers.get(event.pointerId);
    if (!last) return;
    const apart = () => { const [a, b] = fingers.values(); return Math.hypot(a.clientX - b.clientX, a.clientY - b.clientY); };
    const before = fingers.size === 2 ? apart() : 0;
    fingers.set(event.pointerId, event);
    if (fingers.size === 2) zoom(before / Math.max(1, apart()));
    else move((last.clientX - event.clientX) * scale(), (last.clientY - event.clientY) * scale());
  });
  for (const name of ["pointerup", "pointercancel", "pointerleave"])
    frame.addEventListener(name, (event) => fingers.delete(event.pointerId));
}
