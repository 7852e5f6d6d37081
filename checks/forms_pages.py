"""For checks/forms: what is asked of each page in the browser, as JavaScript that returns what is wrong with it."""

# one heading, a language, a title; ids are unique; each control has one label; tables and navs say what they are
SOUND = """(() => {
  const faults = [], all = selector => [...document.querySelectorAll(selector)];
  const say = (fault, elements) => elements.length && faults.push(fault + ": " + elements.map(one => one.outerHTML.slice(0, 80)).join(" "));
  const ids = all("[id]").map(one => one.id);
  say("an id twice", all("[id]").filter(one => ids.filter(id => id === one.id).length > 1));
  if (all("h1").length !== 1) faults.push(all("h1").length + " h1");
  if (all("main").length !== 1) faults.push(all("main").length + " main");
  if (!document.documentElement.lang) faults.push("no lang");
  if (!document.title.trim()) faults.push("no title");
  if (document.compatMode !== "CSS1Compat") faults.push("quirks mode");
  if (!document.querySelector("meta[name=viewport]")) faults.push("no viewport");
  const controls = all("input, select, textarea").filter(one => one.type !== "hidden");
  say("no label, or more than one", controls.filter(one => one.labels.length !== 1));
  say("an empty label", controls.filter(one => one.labels.length === 1 && !one.labels[0].innerText.trim()));
  say("a label without its control", all("label").filter(one => !one.control));
  say("a button or link without words", all("button, a").filter(one => !one.innerText.trim()));
  say("a pattern that the browser drops", all("[pattern]").filter(one => { try { new RegExp(one.pattern, "v"); return false; } catch { return true; } }));
  say("described by nothing", all("[aria-describedby]").filter(one => one.getAttribute("aria-describedby").split(" ").some(id => !document.getElementById(id))));
  say("th without scope", all("th").filter(one => !one.scope));
  say("nav without a name", all("nav").filter(one => !one.getAttribute("aria-label")));
  say("tabindex", all("[tabindex]").filter(one => one.tabIndex > 0));
  say("a script", all("script"));
  say("a handler", all("*").filter(one => [...one.attributes].some(held => held.name.startsWith("on"))));
  say("elsewhere", all("a[href], form[action]").filter(one => new URL(one.href || one.action).origin !== location.origin));
  return faults;
})()"""

# contrast of each text that is seen with what is behind it: WCAG 2, 1.4.3, where all text is taken for small
CONTRAST = """(() => {
  const parts = text => { const found = text.match(/[\\d.]+%?/g).map(parseFloat); return found.length > 3 ? found : [...found, 1]; };
  const canvas = document.createElement("i");
  canvas.style.backgroundColor = "Canvas";
  document.body.append(canvas);
  const paper = parts(getComputedStyle(canvas).backgroundColor);
  canvas.remove();
  const over = (top, below) => [0, 1, 2].map(at => top[at] * top[3] + below[at] * (1 - top[3])).concat(1);
  const behind = one => !one ? paper : over(parts(getComputedStyle(one).backgroundColor), behind(one.parentElement));
  const light = colour => { const [r, g, b] = colour.map(part => part / 255).map(part => part <= 0.04045 ? part / 12.92 : ((part + 0.055) / 1.055) ** 2.4);
    return 0.2126 * r + 0.7152 * g + 0.0722 * b; };
  const ratio = (one, style) => { const ground = behind(one), pair = [light(over(parts(style.color), ground)), light(ground)].sort((a, b) => b - a);
    return (pair[0] + 0.05) / (pair[1] + 0.05); };
  let least = 99, count = 0;
  const faults = [], look = (one, style, words) => { const found = ratio(one, style); count += 1; least = Math.min(least, found);
    if (found < 4.5) faults.push(found.toFixed(2) + " of " + words.trim().slice(0, 40)); };
  for (const one of document.body.querySelectorAll("*")) {
    if (!one.checkVisibility() || one.tagName === "OPTION") continue;
    const words = [...one.childNodes].filter(node => node.nodeType === 3).map(node => node.data).join("");
    if (words.trim() || "INPUT SELECT TEXTAREA".includes(one.tagName)) look(one, getComputedStyle(one), words || one.name);
    if (one.placeholder && !one.value) look(one, getComputedStyle(one, "::placeholder"), one.placeholder);
  }
  return {faults, least: +least.toFixed(2), count};
})()"""

# neither the page nor a cell of a table is wider than what is seen of it
NARROW = """(() => {
  const root = document.scrollingElement, most = document.documentElement.clientWidth;
  const wide = [...document.body.querySelectorAll("*")].filter(one => one.checkVisibility() && one.getBoundingClientRect().right > most + 1);
  return root.scrollWidth <= most && !wide.length ? [] : [`${root.scrollWidth} of ${most} wide: ` + wide.slice(-3).map(one => one.outerHTML.slice(0, 80)).join(" ")];
})()"""

# the day of printing, where it is seen
DATED = "[...document.querySelectorAll('main > p.printed')].filter(one => one.checkVisibility()).map(one => one.innerText)"

# what is left out on paper
PRINTED = """[...document.querySelectorAll("nav, main form")].filter(one => one.checkVisibility()).map(one => one.outerHTML.slice(0, 80))"""

# the elements of the page as they stand in each other, without their texts
BONES = """(() => { const bones = one => one.tagName + "(" + [...one.attributes].map(held => held.name).join(" ") + ")[" + [...one.children].map(bones).join("") + "]";
  return bones(document.documentElement); })()"""

# the form of a command: the texts of its controls by their names, and what is marked
FORM = """(() => {
  const form = document.querySelector("form[action='/pages/commands']");
  if (!form) return null;
  const controls = [...form.elements].filter(one => one.name);
  return {values: Object.fromEntries(controls.map(one => [one.name, one.value])), method: form.method, kind: form.elements.do.value,
    marked: controls.filter(one => one.getAttribute("aria-invalid") === "true").map(one => one.name),
    tied: controls.every(one => one.getAttribute("aria-invalid") !== "true" || (one.getAttribute("aria-describedby") || "").split(" ").some(id => document.getElementById(id)?.closest("[role=alert]"))),
    whole: form.checkValidity()};
})()"""

# puts texts into the controls, and returns the names of those that did not take theirs
FILL = """((texts, unasked) => {
  const form = document.querySelector("form[action='/pages/commands']");
  form.noValidate = unasked;
  return Object.entries(texts).filter(([name, text]) => { const one = form.elements[name]; if (!one) return true; one.value = text; return one.value !== text; }).map(([name]) => name);
})"""
# what a form would do; why a deadline stands as it does, and whether what was filed was in time; the texts of each row of a table
WOULD = "document.querySelector('[role=status] pre')?.textContent"
STEPS = "document.querySelector('main > pre')?.textContent"
FILED = "[...document.querySelectorAll('main > p:not(.printed)')].slice(1).map(one => one.innerText)"
ROWS = "[...document.querySelectorAll('tbody tr')].map(row => [...row.cells].map(cell => cell.innerText.trim()))"
ALERT = "[...document.querySelectorAll('[role=alert]')].map(one => one.innerText.trim())"
FOCUS = """(() => { const one = document.activeElement, style = getComputedStyle(one);
  return {tag: one.tagName, href: one.getAttribute("href"), name: one.name || "", outline: style.outlineStyle !== "none" && parseFloat(style.outlineWidth) > 0}; })()"""
