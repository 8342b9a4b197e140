// What tools/check-access-page asks a browser of a page: its elements, text that is cut off, and how far each text stands out.
const elements = [...document.querySelectorAll("*")].filter((it) => it.tagName != "SCRIPT");
const told = { elements: elements.map((it) => it.localName), cut: [], contrasts: [] };

// WCAG 2.1: relative luminance and contrast ratio
const numbers = (colour) => colour.match(/[\d.]+/g).map(Number);
const part = (it) => (it / 255 <= 0.04045 ? it / 255 / 12.92 : ((it / 255 + 0.055) / 1.055) ** 2.4);
const luminance = ([red, green, blue]) => 0.2126 * part(red) + 0.7152 * part(green) + 0.0722 * part(blue);
const ground = (it) => {
  for (; it; it = it.parentElement) {
    const colour = numbers(getComputedStyle(it).backgroundColor);
    if (colour.length == 3 || colour[3] == 1) return colour;
  }
  return [255, 255, 255];
};

const contrasts = {};
for (const it of document.body.querySelectorAll("*")) {
  const hasText = [...it.childNodes].some((child) => child.nodeType == 3 && child.data.trim());
  if (it.tagName == "SCRIPT" || !hasText) continue;
  const [fore, back] = [luminance(numbers(getComputedStyle(it).color)), luminance(ground(it))];
  const name = it.localName + (it.className ? "." + it.className : "");
  contrasts[name] = Math.min(contrasts[name] ?? 99, (Math.max(fore, back) + 0.05) / (Math.min(fore, back) + 0.05));
  if (it.tagName == "SPAN" && it.scrollWidth > it.clientWidth + 1) told.cut.push(name);
}
told.contrasts = Object.entries(contrasts);
if (document.body.scrollWidth > document.documentElement.clientWidth) told.cut.push("body");
told.back = getComputedStyle(document.body).backgroundColor;
const probe = document.createElement("meta");
probe.name = "probe";
probe.content = JSON.stringify(told);
document.head.append(probe);
