"use strict";
// Shows one state at a time: the one that the fragment names, as `#step=5`, else the first.
const states = [...document.querySelectorAll(".state")];
const shapes = [...document.querySelectorAll(".lanes [data-from]")];
const links = [...document.querySelectorAll(".events a")];
const frame = document.querySelector(".lanes");
const last = states.length - 1;
const moves = {
  ArrowLeft: () => at - 1, ArrowUp: () => at - 1, ArrowRight: () => at + 1, ArrowDown: () => at + 1,
  Home: () => 0, End: () => last,
};
let at = 0;

function show(step) {
  at = Math.min(Math.max(step, 0), last);
  states.forEach((state, number) => state.classList.toggle("on", number === at));
  for (const shape of shapes) {
    shape.classList.toggle("on", shape.dataset.from <= at && at <= shape.dataset.to);
  }
  links.forEach((link, number) => link.setAttribute("aria-current", number + 1 === at ? "step" : "false"));
  document.querySelector("#at").textContent = `${at} of ${last}`;
  for (const button of document.querySelectorAll("[data-move]")) {
    button.disabled = at === (["Home", "ArrowLeft"].includes(button.dataset.move) ? 0 : last);
  }
  bringIntoSight();
}

// Where the picture is larger than its frame, what has just happened is brought into sight.
function bringIntoSight() {
  const picture = frame.querySelector("svg");
  if (!picture) return;
  const scale = picture.getBoundingClientRect().width / picture.viewBox.baseVal.width;
  const { x, top, bottom } = states[at].dataset;
  frame.scrollLeft = x * scale - frame.clientWidth + 80;
  frame.scrollTop = (Number(top) + Number(bottom)) / 2 * scale - frame.clientHeight / 2;
}

function go(step) {
  show(step);
  history.replaceState(null, "", `#step=${at}`);
}

function showFragment() {
  const found = /^#step=(\d+)$/.exec(location.hash);
  show(found ? Number(found[1]) : 0);
}

document.addEventListener("keydown", (event) => {
  const move = moves[event.key];
  if (!move || event.altKey || event.ctrlKey || event.metaKey || event.shiftKey) return;
  event.preventDefault();
  go(move());
});
for (const button of document.querySelectorAll("[data-move]")) {
  button.addEventListener("click", () => go(moves[button.dataset.move]()));
}
window.addEventListener("hashchange", showFragment);
window.addEventListener("resize", bringIntoSight);
document.documentElement.classList.add("steps");
showFragment();
