// geometry.js: in a browser, over a page of timelines: each text is inside its picture, no two level texts of a picture
// overlap, and a line to whoever is in the way leads from a wait to a bar. Leaves what is otherwise as the page's text.
"use strict";

// Pixels by which boxes may overlap: a browser's fonts differ by that much.
const WIDE = 2, HIGH = 4;

const boxOf = (element) => element.getBoundingClientRect();

const isInside = (box, whole) =>
  box.left >= whole.left && box.right <= whole.right && box.top >= whole.top && box.bottom <= whole.bottom;

const overlap = (one, other) =>
  Math.min(one.right, other.right) - Math.max(one.left, other.left) > WIDE &&
  Math.min(one.bottom, other.bottom) - Math.max(one.top, other.top) > HIGH;

const hasPoint = (rect, point) => {
  const of = (name) => Number(rect.getAttribute(name));
  return point.x >= of("x") && point.x <= of("x") + Math.max(of("width"), 16) && point.y >= of("y") - 3 &&
    point.y <= of("y") + of("height") + 3;
};

function faultsOf(picture) {
  const whole = boxOf(picture);
  const texts = [...picture.querySelectorAll("text")].filter((text) => text.textContent.trim() !== "");
  const level = texts.filter((text) => !text.hasAttribute("transform"));
  const cut = texts.filter((text) => !isInside(boxOf(text), whole)).map((text) => `cut off: ${text.textContent}`);
  const over = level.flatMap((one, at) => level.slice(at + 1).filter((other) => overlap(boxOf(one), boxOf(other)))
    .map((other) => `one over the other: ${one.textContent}, ${other.textContent}`));
  const bars = [...picture.querySelectorAll(".held rect, .waits rect")];
  const waits = [...picture.querySelectorAll(".waits rect")];
  const astray = [...picture.querySelectorAll(".way")].filter((way) =>
    !waits.some((rect) => hasPoint(rect, way.getPointAtLength(0))) ||
    !bars.some((rect) => hasPoint(rect, way.getPointAtLength(way.getTotalLength()))))
    .map((way) => `leads astray: ${way.getAttribute("d")}`);
  return [...cut, ...over, ...astray];
}

const pictures = [...document.querySelectorAll("figure")];
const faults = pictures.flatMap((figure) => faultsOf(figure.querySelector("svg")).map((fault) => `${figure.id}: ${fault}`));
document.body.textContent = [`pictures: ${pictures.length}, faults: ${faults.length}`, ...faults].join("\n");
