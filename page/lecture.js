// A lecture: steps, each with a script that runs in place, a question, and its answer.
"use strict";
const Lecture = {
  kit: JSON.parse(Machine.block("lecture-texts")),
  at: 0,

  show(is_on) {
    $("lecture").hidden = !is_on;
    document.body.classList.toggle("teaching", is_on);
    $("to-lecture").setAttribute("aria-pressed", String(is_on));
    $("to-script").setAttribute("aria-pressed", String(!is_on));
  },

  // a paragraph in which backticks mark code, and two asterisks what is bold
  paragraph(kind, text) {
    const made = element("p", kind);
    made.append(...text.split(/(`[^`]+`|\*\*[^*]+\*\*)/).map(part => part[0] === "`" ? element("code", "", part.slice(1, -1)) : part.startsWith("**") ? element("strong", "", part.slice(2, -2)) : part));
    return made;
  },

  answer(is_shown) {
    $("answer").hidden = !is_shown;
    $("answer-button").setAttribute("aria-expanded", String(is_shown));
    $("answer-button").textContent = is_shown ? "Hide the answer" : "Show the answer";
  },

  open(at) {
    const steps = this.kit.steps, step = steps[this.at = Math.min(Math.max(0, at), steps.length - 1)];
    this.show(true);
    $("step").value = this.at;
    $("step-back").disabled = this.at === 0;
    $("step-on").disabled = this.at === steps.length - 1;
    $("step-text").replaceChildren(...step.text.map(text => this.paragraph("", text)));
    $("question").replaceChildren(...this.paragraph("", step.question || "").childNodes);
    $("answer-button").hidden = !step.answer;
    $("answer").replaceChildren(...(step.wrong ? [this.paragraph("sum", "Most say: " + step.wrong)] : []), this.paragraph("", step.answer || ""));
    this.answer(false);
    history.replaceState(null, "", location.href.split("#")[0] + "#lecture=" + this.at);
    if (step.script) return Page.open(step.script, "script", step.who, step.at, "");
    const found = Page.examples.find(example => example.file === step.example);
    if (!found) return undefined;
    $("example").value = found.file;
    return Page.open(found.text, found.sort, step.who || found.who, step.at, found.question);
  },

  begin() {
    $("step").append(...this.kit.steps.map((step, k) => { const option = element("option", "", step.title + (/^\d/.test(step.minutes) ? ` (${step.minutes} min)` : "")); option.value = k; return option; }));
    $("step").onchange = () => this.open(Number($("step").value));
    $("step-back").onclick = () => this.open(this.at - 1);
    $("step-on").onclick = () => this.open(this.at + 1);
    $("answer-button").onclick = () => this.answer($("answer").hidden);
    $("to-lecture").onclick = () => this.open(this.at);
    $("to-script").onclick = () => { this.show(false); history.replaceState(null, "", Page.address()); };
    $("full").onclick = () => document.fullscreenElement ? document.exitFullscreen() : document.documentElement.requestFullscreen();
  },
};
