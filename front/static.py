"""The style and the script of the page."""

STYLE = """
:root { color-scheme: light dark; --line: #8886; --soft: #8882; --mark: #0645ad; --bad: #b00020; }
@media (prefers-color-scheme: dark) { :root { --mark: #8ab4f8; --bad: #ff8a80; } }
* { box-sizing: border-box; }
body { font: 1rem/1.5 system-ui, sans-serif; margin: 0 auto; max-width: 60rem; padding: 0 1rem 2rem; }
a { color: var(--mark); }
nav { display: flex; flex-wrap: wrap; gap: 0.25rem 1rem; align-items: center; border-bottom: 1px solid var(--line); padding: 0.5rem 0; }
nav form { margin-left: auto; }
h1 { font-size: 1.3rem; }
h2 { font-size: 1.1rem; }
table { border-collapse: collapse; width: 100%; }
th, td { text-align: start; padding: 0.3rem 0.5rem; border-bottom: 1px solid var(--line); overflow-wrap: anywhere; }
td.number, th.number { text-align: end; font-variant-numeric: tabular-nums; }
label { display: block; margin: 0.6rem 0 0.2rem; font-weight: 600; }
input, select, textarea, button { font: inherit; max-width: 100%; }
input[type=text], input[type=search], input[type=password], input[type=file], textarea, select { width: 100%; padding: 0.4rem; border: 1px solid var(--line); border-radius: 0.3rem; }
textarea { min-height: 4.5rem; }
button { padding: 0.4rem 0.8rem; border: 1px solid var(--line); border-radius: 0.3rem; cursor: pointer; }
button.main { border-color: var(--mark); }
form.inline { display: inline; }
label.inline { display: inline; margin: 0; font-weight: normal; }
form.inline select { width: auto; }
.buttons form { flex: 1 1 6rem; display: flex; }
.row { display: flex; flex-wrap: wrap; gap: 0.5rem; margin: 0.6rem 0; align-items: center; }
.buttons button { flex: 1 1 6rem; padding: 0.8rem; }
.told { border: 1px solid var(--line); background: var(--soft); border-radius: 0.3rem; padding: 0.5rem 0.8rem; }
.bad { border-color: var(--bad); color: var(--bad); }
iframe.card { width: 100%; height: 45vh; min-height: 12rem; border: 1px solid var(--line); border-radius: 0.3rem; background: Canvas; }
.chart { width: 100%; height: auto; font-size: 11px; }
.chart text { fill: currentColor; }
.chart .grid { stroke: currentColor; opacity: 0.2; }
.plain { fill: #3b7dd8; } .again { fill: #d6453d; } .hard { fill: #d98e04; } .good { fill: #3f9142; } .easy { fill: #3b7dd8; }
.key::before { content: "\\25A0 "; }
.key.again { color: #d6453d; } .key.hard { color: #d98e04; } .key.good { color: #3f9142; } .key.easy { color: #3b7dd8; }
small { opacity: 0.8; }
:focus-visible { outline: 3px solid var(--mark); outline-offset: 2px; }
@media (max-width: 30rem) { body { padding: 0 0.5rem 1rem; } .wide { display: none; } }
"""

# Keys press buttons that the page has: an element names its keys in data-keys. Nothing else is done here.
SCRIPT = """
"use strict";
var pressed = false;
document.addEventListener("keydown", function (event) {
  var tag = event.target.tagName;
  if (event.ctrlKey || event.altKey || event.metaKey || tag === "INPUT" || tag === "TEXTAREA" || tag === "SELECT") { return; }
  var key = event.key === " " ? "space" : event.key;
  if (key === "Enter" && (tag === "BUTTON" || tag === "A" || tag === "SUMMARY")) { return; }
  var found = document.querySelector('[data-keys~="' + CSS.escape(key) + '"]');
  if (!found || pressed) { if (found) { event.preventDefault(); } return; }
  event.preventDefault();
  if (event.repeat) { return; }
  pressed = found.tagName !== "SUMMARY";
  found.click();
});
window.addEventListener("pageshow", function () { pressed = false; });
// A click on a card takes the keys into its frame: they come back.
window.addEventListener("blur", function () {
  window.setTimeout(function () {
    if (document.activeElement && document.activeElement.tagName === "IFRAME") { document.activeElement.blur(); window.focus(); }
  }, 0);
});
"""
