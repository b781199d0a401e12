"use strict";
// The player of each plan: its round is shown in the lanes and in the charts.
for (const plan of document.querySelectorAll("article.plan")) {
  const player = plan.querySelector(".player");
  if (!player) continue;
  const [button, slider, told] = ["button", "input", "output"].map((it) => player.querySelector(it));
  const steps = [...plan.querySelectorAll(".step[data-round]")];
  const lanes = plan.querySelector(".lanes");
  let timer = 0;
  const show = (round) => {
    slider.value = round;
    plan.classList.toggle("playing", round > 0);
    plan.style.setProperty("--round", round);
    for (const step of steps) {
      step.classList.toggle("now", Number(step.dataset.round) === round);
      step.classList.toggle("past", Number(step.dataset.round) < round);
    }
    const first = steps.find((step) => Number(step.dataset.round) === round);
    lanes.scrollTo({ left: first ? first.offsetLeft - lanes.clientWidth / 3 : 0, behavior: "smooth" });
    told.textContent = round === 0 ? "before the plan" : `after round ${round} of ${slider.max}`;
  };
  const stop = () => { clearInterval(timer); timer = 0; button.textContent = "▶"; };
  slider.addEventListener("input", () => { stop(); show(Number(slider.value)); });
  button.addEventListener("click", () => {
    if (timer) { stop(); return; }
    if (Number(slider.value) === Number(slider.max)) show(0);
    button.textContent = "❚❚";
    timer = setInterval(() => {
      if (Number(slider.value) >= Number(slider.max)) { stop(); return; }
      show(Number(slider.value) + 1);
    }, 700);
  });
}
// A cell of the overview leads to its step.
for (const cell of document.querySelectorAll("[data-goto]")) {
  cell.addEventListener("click", () => {
    const step = cell.closest("article.plan").querySelector(`[data-step="${cell.dataset.goto}"]`);
    step.scrollIntoView({ block: "center", inline: "center", behavior: "smooth" });
    step.animate([{ outline: "3px solid var(--accent)" }, { outline: "3px solid transparent" }], 1600);
  });
}
// All streams in words are opened, or closed, together.
for (const button of document.querySelectorAll("button.all")) {
  button.addEventListener("click", () => {
    const is_open = button.textContent === "open all";
    for (const it of button.closest("section").querySelectorAll("details.words")) it.open = is_open;
    button.textContent = is_open ? "close all" : "open all";
  });
}
