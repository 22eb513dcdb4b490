"""The style and the script of the page that `vollikash html` makes."""

# How many pixels a row has, if it has one line, and what is above the rows of a table.
ROW_HEIGHT, HEAD_HEIGHT = 30, 85

STYLE = """
:root {
  color-scheme: light dark;
  --ground: #ffffff; --ink: #1f2328; --quiet: #656d76; --line: #d8dee4; --bar: #f6f8fa;
  --insert: #eaf7ee; --insert-ink: #116329; --delete: #fdf0ef; --delete-ink: #a40e26;
  --update: #fbf7e9; --update-ink: #7d4e00;
}
@media (prefers-color-scheme: dark) {
  :root {
    --ground: #15191f; --ink: #dce2e9; --quiet: #8d96a0; --line: #343b44; --bar: #1c2128;
    --insert: #16291d; --insert-ink: #7ee2a0; --delete: #2e1b1d; --delete-ink: #ffa198;
    --update: #2a2616; --update-ink: #e3c26b;
  }
}
* { box-sizing: border-box; }
body {
  margin: 0; background: var(--ground); color: var(--ink);
  font: 15px/1.45 system-ui, -apple-system, "Segoe UI", "DejaVu Sans", sans-serif;
}
header, main, footer { padding: 0 1.5rem; }
header { padding-top: 1.25rem; }
h1 { margin: 0; font-size: 1.35rem; font-weight: 600; overflow-wrap: anywhere; }
h2 { margin: 1.75rem 0 0; font-size: 1.1rem; font-weight: 600; overflow-wrap: anywhere; }
h3 { margin: 1.25rem 0 .4rem; font-size: 1rem; font-weight: 600; overflow-wrap: anywhere; }
h3 small, p { color: var(--quiet); font-size: .85rem; font-weight: 400; }
h3 small { margin-left: .6rem; }
p { margin: .2rem 0 0; }
form {
  position: sticky; top: 0; z-index: 1; display: flex; flex-wrap: wrap; gap: .6rem 1.2rem;
  align-items: center; margin-top: 1rem; padding: .6rem 1.5rem; background: var(--bar);
  border: solid var(--line); border-width: 1px 0; font-size: .9rem;
}
[hidden] { display: none !important; }
select, input[type=search] {
  margin-left: .4rem; padding: .25rem .5rem; border: 1px solid var(--line); border-radius: 5px;
  background: var(--ground); color: inherit; font: inherit; max-width: 18rem;
}
output { margin-left: auto; color: var(--quiet); }
.scroll { overflow-x: auto; border: 1px solid var(--line); border-radius: 6px; }
/* A table, and a part of it, is laid out once it is near what is seen. */
.part, section[data-table] { content-visibility: auto; }
table { width: 100%; border-collapse: collapse; table-layout: fixed; }
th, td { padding: .3rem .75rem; text-align: left; vertical-align: top; }
td {
  font: 13px/1.5 ui-monospace, "SF Mono", Menlo, Consolas, "DejaVu Sans Mono", monospace;
  white-space: pre-wrap; overflow-wrap: anywhere;
}
thead th { background: var(--bar); color: var(--quiet); font-size: .82rem; font-weight: 600; }
thead th { overflow-wrap: anywhere; }
thead th.key::after { content: " key"; font-weight: 400; font-size: .9em; opacity: .75; }
tbody tr { border-top: 1px solid var(--line); }
tbody th { font-size: .8rem; font-weight: 600; }
tbody th small { display: block; color: var(--quiet); font-weight: 400; }
tr.insert { background: var(--insert); } tr.insert *, ins { color: var(--insert-ink); }
tr.delete { background: var(--delete); } tr.delete *, del { color: var(--delete-ink); }
tr.update { background: var(--update); } tr.update th { color: var(--update-ink); }
del { text-decoration-thickness: 1px; } ins { text-decoration: none; }
ins::before { content: "\\2192\\a0"; opacity: .55; }
.text::before, .text::after { content: "'"; opacity: .55; }
ins.text::before { content: "\\2192\\a0'"; }
.null { font-style: italic; opacity: .75; }
.long { max-height: 15rem; overflow: auto; }
footer { margin: 2rem 0 1.5rem; color: var(--quiet); font-size: .8rem; }
"""

SCRIPT = """
"use strict";
(() => {
  const HEIGHT = ROW_HEIGHT, HEAD = HEAD_HEIGHT;
  const found = id => document.getElementById(id);
  const form = found("filter"), table = found("table"), text = found("text");
  const sections = [...document.querySelectorAll("section[data-table]")];
  const names = [...new Set(sections.map(section => section.dataset.table))];
  names.forEach((name, place) => table.add(new Option(name, String(place))));
  let known = null;
  const rowsOf = part => [...part.querySelectorAll("tbody tr")].map(row => ({
    row,
    words: [...row.cells].slice(1).map(cell => cell.textContent.toLowerCase()).join("\\n"),
  }));
  const partsOf = section => [...section.querySelectorAll(".part")].map(part => ({
    part, rows: rowsOf(part),
  }));
  const filterPart = ({ part, rows }, fits) => {
    let here = 0;
    for (const { row, words } of rows) {
      const is = fits(row.className, words);
      if (row.hidden === is) row.hidden = !is;
      here += is;
    }
    part.hidden = here === 0;
    part.style.containIntrinsicHeight = `${HEIGHT * here}px`;
    return here;
  };
  const filter = () => {
    known = known || sections.map(section => ({ section, parts: partsOf(section) }));
    const name = table.value === "" ? null : names[Number(table.value)];
    const wanted = text.value.toLowerCase();
    const ops = new Set([...form.querySelectorAll("input:checked")].map(box => box.value));
    const fits = (op, words) => ops.has(op) && words.includes(wanted);
    let shown = 0, all = 0;
    for (const { section, parts } of known) {
      const isWanted = name === null || section.dataset.table === name;
      let here = 0;
      for (const part of parts) {
        here += filterPart(part, (op, words) => isWanted && fits(op, words));
        all += part.rows.length;
      }
      section.hidden = here === 0;
      section.style.containIntrinsicHeight = `${HEAD + HEIGHT * here}px`;
      shown += here;
    }
    found("count").textContent = `${shown} of ${all} changes`;
  };
  let timer = 0;
  form.addEventListener("input", () => {
    clearTimeout(timer);
    timer = setTimeout(filter, 80);
  });
  form.addEventListener("submit", event => event.preventDefault());
  form.hidden = false;
})();
""".replace("ROW_HEIGHT", str(ROW_HEIGHT)).replace("HEAD_HEIGHT", str(HEAD_HEIGHT))
