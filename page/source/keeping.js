// What is shown again stays as it is: a browser lays out and paints only what is another.

const SVG_NAMESPACE = "http://www.w3.org/2000/svg";

/** Sets an attribute only where it is another one. */
function setAttribute(element, name, value) {
  if (element.getAttribute(name) !== String(value)) element.setAttribute(name, value);
}

function setAttributes(element, attributes) {
  for (const [name, value] of Object.entries(attributes)) setAttribute(element, name, value);
}

/** Sets the text of an element that has nothing else, only where it is another one. */
function setText(element, text) {
  if (element.textContent !== String(text)) element.textContent = text;
}

/** Puts these elements into another one, in this order, and nothing else. Those that stand there already stay. */
function putElements(parent, elements) {
  dropOthers(parent, new Set(elements));
  let next = parent.firstElementChild;
  for (const element of elements) {
    if (element === next) next = next.nextElementSibling;
    else parent.insertBefore(element, next);
  }
}

function dropOthers(parent, wanted) {
  for (const element of [...parent.children]) if (!wanted.has(element)) element.remove();
}

/** An element of an SVG, as markup, with those of its attributes that may come to be others. The same key is the same element. */
class Part {
  constructor(key, markup, attributes = {}) {
    Object.assign(this, { key: `${key} ${markup}`, markup, attributes });
  }
}

/** An SVG whose parts stay where they are shown again. */
class KeptSvg {
  constructor() {
    this.svg = document.createElementNS(SVG_NAMESPACE, "svg");
    this.kept = new Map();
  }

  /** Shows a box of a picture, so many times as large, with these parts on its sheet. */
  show(box, zoom, parts) {
    const { left, top, width, height } = box;
    setAttributes(this.svg, { width: width * zoom, height: height * zoom, viewBox: `${left} ${top} ${width} ${height}` });
    const all = [new Part("sheet", '<rect class="sheet"/>', { x: left, y: top, width, height }), ...parts];
    this.make(all.filter(({ key }) => !this.kept.has(key)));
    this.kept = new Map(all.map(({ key }) => [key, this.kept.get(key)]));
    for (const part of all) setAttributes(this.elementOf(part), part.attributes);
    putElements(this.svg, [...this.kept.values()]);
    return this.svg;
  }

  make(parts) {
    if (parts.length === 0) return;
    const svg = document.createElementNS(SVG_NAMESPACE, "svg");
    svg.innerHTML = parts.map(({ markup }) => markup).join("");
    const made = [...svg.children];
    parts.forEach(({ key }, index) => this.kept.set(key, made[index]));
  }

  /** The element of a part that is shown. */
  elementOf({ key }) {
    return this.kept.get(key);
  }
}
