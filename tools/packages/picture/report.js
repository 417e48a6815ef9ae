"use strict";
const collator = new Intl.Collator("en", { numeric: true });
const wordsOf = (row, column) => row.cells[column].textContent;

function sort(heading) {
  const table = heading.closest("table"), column = heading.cellIndex;
  const turn = heading.ariaSort === "ascending" ? -1 : 1;
  for (const other of table.tHead.rows[0].cells) other.ariaSort = "none";
  heading.ariaSort = turn === 1 ? "ascending" : "descending";
  const rows = [...table.tBodies[0].rows].map((row) => [wordsOf(row, column), row]);
  rows.sort(([one], [other]) => turn * collator.compare(one, other));
  table.tBodies[0].append(...rows.map(([, row]) => row));
}

function search(section) {
  // what lies between commas has to be in a cell as it is written: "servo B" is another name than "servo A"
  const phrases = section.querySelector("input").value.toLowerCase().split(",").map((phrase) => phrase.trim()).filter(Boolean);
  let found = 0;
  for (const row of section.querySelector("tbody").rows) {
    const cells = Array.from(row.cells, (cell) => cell.textContent.toLowerCase());
    row.hidden = !phrases.every((phrase) => cells.some((cell) => cell.includes(phrase)));
    found += !row.hidden;
  }
  section.querySelector(".found").textContent = `${found} found`;
}

for (const heading of document.querySelectorAll("th button")) {
  heading.addEventListener("click", () => sort(heading.closest("th")));
}
for (const section of document.querySelectorAll("section.searched")) {
  section.querySelector("input").addEventListener("input", () => search(section));
}
