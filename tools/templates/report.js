"use strict";
function openAbove(id) {
  let at = document.getElementById(decodeURIComponent(id));
  while (at) {
    if (at.tagName === "DETAILS") at.open = true;
    at = at.parentElement;
  }
}
function openTarget() {
  if (location.hash.length > 1) {
    openAbove(location.hash.slice(1));
    const target = document.getElementById(decodeURIComponent(location.hash.slice(1)));
    if (target) target.scrollIntoView();
  }
}
for (const button of document.querySelectorAll("button[data-open]")) {
  button.addEventListener("click", () => {
    for (const one of document.querySelectorAll("details")) one.open = button.dataset.open === "true";
  });
}
let closed = [];
window.addEventListener("beforeprint", () => {
  closed = [...document.querySelectorAll("details:not([open])")];
  for (const one of closed) one.open = true;
});
window.addEventListener("afterprint", () => {
  for (const one of closed) one.open = false;
});
window.addEventListener("hashchange", openTarget);
openTarget();
