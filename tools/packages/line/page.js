"use strict";
const log = document.querySelector("#log"), box = document.querySelector("input"), past = [];
let place = 0, waiting = 0;

function cells(row) {
  const line = document.createElement("tr");
  for (const words of row) line.append(Object.assign(document.createElement("td"), { textContent: words }));
  return line;
}

async function send(command) {
  const headers = { "X-Session": document.body.dataset.token };
  const response = await fetch("/command", { method: "POST", headers, body: command });
  if (!response.ok) throw new Error(`the session answers ${response.status}`);
  const state = await response.json();
  if (command.trim()) log.textContent += ["> " + command, ...state.lines].join("\n") + "\n";
  log.scrollTop = log.scrollHeight;
  document.querySelector("#picture").innerHTML = state.picture;
  document.querySelector("#change").textContent = state.change.join("\n");
  document.querySelector("#values tbody").replaceChildren(...state.values.map(cells));
  document.querySelector("#assignments tbody").replaceChildren(...state.assignments.map(cells));
  document.querySelector("#state").textContent = state.words;
  document.body.dataset.ready = "yes";
}

function work(more) {
  waiting += more;
  document.body.classList.toggle("working", waiting > 0);
}

function give(command) {
  work(1);
  send(command).catch((error) => { log.textContent += `? ${error.message}\n`; }).finally(() => work(-1));
}

document.querySelector("form").addEventListener("submit", (event) => {
  event.preventDefault();
  if (box.value.trim()) { past.push(box.value); place = past.length; give(box.value); }
  box.value = "";
});
for (const button of document.querySelectorAll(".buttons button")) {
  button.addEventListener("click", () => give(button.dataset.command));
}
box.addEventListener("keydown", (event) => {
  const step = { ArrowUp: -1, ArrowDown: 1 }[event.key];
  if (!step) return;
  place = Math.min(Math.max(place + step, 0), past.length);
  box.value = past[place] ?? "";
  event.preventDefault();
});
give("");
