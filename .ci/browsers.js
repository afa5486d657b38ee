// Finds what differs when a browser parses cleaned texts. `.ci/browsers` serves it as the only script of a page. A job has texts, and
// either places of a page or the rules of a policy. The reply lists the differences of each text: what each is about, what was wanted and
// what came.
'use strict';
const HTML = 'http://www.w3.org/1999/xhtml', SVG = 'http://www.w3.org/2000/svg', MATH = 'http://www.w3.org/1998/Math/MathML';
const ELEMENTS = {[HTML]: '', [SVG]: 'svg ', [MATH]: 'math '};
const ATTRIBUTES = {
  'http://www.w3.org/1999/xlink': 'xlink ', 'http://www.w3.org/XML/1998/namespace': 'xml ', 'http://www.w3.org/2000/xmlns/': 'xmlns ',
};
const ESCAPES = {'\n': '\\n', '\t': '\\t', '\f': '\\f', '\r': '\\r', '\0': '\\0', '\\': '\\\\'};

// The elements that a text is parsed in. In the first ones its tree must be that of a `div`; the others parse some elements differently.
const SAME = ['div', 'td', 'template', 'section'];
const CONTEXTS = [...SAME.map(name => [HTML, name]), [HTML, 'select'], [HTML, 'button'], [SVG, 'svg']];
// The elements of one text in this number are also clicked and focused, which takes longer than all else.
const CLICKED = 20;
// The milliseconds within which a late script runs: one that a click or an event starts after this script returns.
const LATE = 60;

// ---- Trees, in the lines of `hengaruto tree`

const escaped = text => text.replace(/[\n\t\f\r\0\\]/g, character => ESCAPES[character]);
const named = (names, namespace, name) => (namespace in names ? names[namespace] : `${namespace} `) + name;

function printElement(element, level, lines) {
  const indent = '  '.repeat(level);
  lines.push(`${indent}<${named(ELEMENTS, element.namespaceURI, element.localName)}>`);
  for (const attribute of element.attributes) {
    const name = attribute.namespaceURI ? named(ATTRIBUTES, attribute.namespaceURI, attribute.localName) : attribute.localName;
    lines.push(`${indent}  ${name}="${escaped(attribute.value)}"`);
  }
  if (element instanceof HTMLTemplateElement) {
    lines.push(`${indent}  content`);
    printChildren(element.content, level + 2, lines);
  }
  printChildren(element, level + 1, lines);
}

// Two texts in a row are one text for a parser. A text that was put next to another is still separate in a browser's tree.
function printChildren(parent, level, lines) {
  const indent = '  '.repeat(level);
  let text = null;
  const endText = () => {
    if (text !== null) lines.push(`${indent}"${escaped(text)}"`);
    text = null;
  };
  for (const node of parent.childNodes) {
    if (node.nodeType === Node.TEXT_NODE) {
      text = (text ?? '') + node.data;
      continue;
    }
    endText();
    if (node.nodeType === Node.ELEMENT_NODE) printElement(node, level, lines);
    else if (node.nodeType === Node.COMMENT_NODE) lines.push(`${indent}<!-- ${escaped(node.data)} -->`);
    else lines.push(`${indent}<!DOCTYPE ${node.name}>`);
  }
  endText();
}

// The lines below a root, which has level 0.
function printed(root) {
  const lines = [];
  printChildren(root, 1, lines);
  return lines;
}

// Adds the first line that differs, if one does.
function compare(found, about, wanted, came) {
  const length = Math.max(wanted.length, came.length);
  for (let line = 0; line < length; line++) {
    if (wanted[line] !== came[line]) {
      found.push([about, wanted[line] ?? null, came[line] ?? null]);
      return;
    }
  }
}

// ---- Places

const pageOf = body =>
  new DOMParser().parseFromString(`<!DOCTYPE html><html><head><title>t</title></head><body>${body}</body></html>`, 'text/html');

// The first comment, which may be in a template.
function commentBelow(parent) {
  for (const node of parent.childNodes) {
    const inner = node instanceof HTMLTemplateElement ? node.content : node;
    const found = node.nodeType === Node.COMMENT_NODE ? node : commentBelow(inner);
    if (found) return found;
  }
  return null;
}

// A comment is the opaque content: no parser moves it or closes an element for it.
function pageAround(place, cleaned) {
  const page = pageOf(place.replace('{}', '<!-- here -->')), division = page.createElement('div');
  division.innerHTML = cleaned;
  commentBelow(page).replaceWith(...division.childNodes);
  return page;
}

function judgeInPlaces({cleaned}, places) {
  const found = [];
  for (const place of places) {
    // `replace` would read `$` in the text.
    const page = pageOf(place.split('{}').join(cleaned));
    compare(found, `in ${place}`, printed(pageAround(place, cleaned)), printed(page));
  }
  return found;
}

// ---- What the rules allow

// The scheme of a URL as the browser reads it: empty for a relative URL, whose scheme is that of the page, and null for no URL.
function schemeOf(url) {
  try {
    const [scheme, other] = ['http://page/', 'https://page/'].map(page => new URL(url, page).protocol);
    return scheme === other ? scheme.slice(0, -1) : '';
  } catch {
    return null;
  }
}

function isAllowedUrl(name, value, rules) {
  const scheme = schemeOf(value), schemes = rules.schemes[name] ?? rules.schemes[''];
  return scheme === null || (scheme === '' ? rules.relative : schemes.includes(scheme));
}

// What names something in the page, or refers to it, has the prefix, so that it can't be something of the page's own.
function isAllowedName(name, value, rules) {
  const {prefix} = rules;
  if (!prefix) return !rules.acting.includes(name);
  if (rules.ids.includes(name)) return value.startsWith(prefix);
  if (rules.lists.includes(name)) return value.split(/[\t\n\f\r ]+/).every(id => id === '' || id.startsWith(prefix));
  return name !== 'href' || !/^#[^]/.test(value) || value.startsWith(`#${prefix}`);
}

// What holds in any context. The names of SVG may have capitals.
function isHarmless(attribute, rules) {
  const name = attribute.name.toLowerCase(), {value} = attribute;
  if (name.startsWith('on') || rules.never.includes(name)) return false;
  return (!rules.urls.includes(name) || isAllowedUrl(name, value, rules)) && isAllowedName(name, value, rules);
}

// What holds where elements have their own names and namespaces.
function isListed(element, {name, value}, rules) {
  if (rules.language && name === 'class') return element.localName === 'code' && /^language-[^\t\n\f\r ]*$/.test(value);
  return rules.attributes[''].includes(name) || (rules.attributes[element.localName] ?? []).includes(name);
}

function isAllowedElement(element, rules) {
  if (element.namespaceURI !== HTML || !rules.elements.includes(element.localName)) return false;
  return element.localName !== 'a' || rules.rel === null || element.getAttribute('rel') === rules.rel;
}

// What isn't allowed below a root. `isWhole` is false in contexts that parse some elements differently, such as `a` in an `svg`.
function* forbidden(root, rules, isWhole) {
  const walker = document.createTreeWalker(root);
  while (walker.nextNode()) {
    const node = walker.currentNode;
    if (node.nodeType === Node.TEXT_NODE) continue;
    const isElement = node.nodeType === Node.ELEMENT_NODE;
    if (!isElement || (isWhole && !isAllowedElement(node, rules))) yield isElement ? node.cloneNode().outerHTML : node.nodeName;
    for (const attribute of node.attributes ?? []) {
      const isAllowed = isHarmless(attribute, rules) && (!isWhole || isListed(node, attribute, rules));
      if (!isAllowed) yield `<${node.localName} ${attribute.name}="${attribute.value}">`;
    }
  }
}

// ---- Texts alone

// Nothing that is parsed into this document runs or is loaded.
const inert = document.implementation.createHTMLDocument('');
// What is parsed into this element does, since it is in the page.
const stage = document.body.appendChild(document.createElement('div'));

// What scripts of texts have done. A script that knows nothing of this page at least fails.
const ran = [];
for (const name of ['alert', 'confirm', 'prompt', 'print', 'eval']) window[name] = () => { ran.push(name); };
addEventListener('error', event => ran.push(event.message));
// A click must not leave the page, but may run a script.
addEventListener('click', event => {
  if (event.target.closest('a')?.protocol !== 'javascript:') event.preventDefault();
}, true);

function parsedIn(namespace, name, text) {
  const context = inert.createElementNS(namespace, name);
  context.innerHTML = text;
  return context instanceof HTMLTemplateElement ? context.content : context;
}

function act(element) {
  if (element.localName === 'a') element.click();
  element.focus?.();
  element.dispatchEvent(new Event('mouseover', {bubbles: true}));
}

function show(cleaned) {
  ran.length = 0;
  stage.innerHTML = cleaned;
}

// What is wrong in one context mostly is in the next. A text that isn't safe is kept out of the page, since it could end this script.
function judgeAlone({cleaned, tree}, rules, isClicked) {
  const found = [];
  for (const [namespace, name] of CONTEXTS) {
    const root = parsedIn(namespace, name, cleaned);
    if (SAME.includes(name)) compare(found, `the tree in a ${name}`, tree, printed(root));
    const [wrong] = forbidden(root, rules, SAME.includes(name));
    if (wrong) found.push([`not allowed, in a ${name}`, null, wrong]);
    if (found.length) return found;
  }
  show(cleaned);
  compare(found, 'the tree in the page', tree, printed(stage));
  if (isClicked) stage.querySelectorAll('*').forEach(act);
  if (ran.length) found.push(['a script', null, ran.splice(0).join(' ')]);
  return found;
}

// The script of a link or of an error runs only after this one. If one of a job's texts has such a script, each is tried alone.
async function findLate(texts, findings) {
  const pause = () => new Promise(resolve => { setTimeout(resolve, LATE); });
  await pause();
  if (!ran.length) return;
  for (const [index, {cleaned}] of texts.entries()) {
    if (findings[index].length) continue;
    show(cleaned);
    stage.querySelectorAll('*').forEach(act);
    await pause();
    if (ran.length) findings[index].push(['a late script', null, ran.splice(0).join(' ')]);
  }
}

// ---- Jobs

function judge(text, index, job) {
  try {
    return job.places ? judgeInPlaces(text, job.places) : judgeAlone(text, job.rules, index % CLICKED === 0);
  } catch (error) {
    return [['the judge failed', null, `${error} ${error.stack}`]];
  }
}

async function work() {
  for (;;) {
    const job = await (await fetch('/job')).json();
    if (!job.texts) continue;
    const findings = job.texts.map((text, index) => judge(text, index, job));
    if (job.rules) await findLate(job.texts, findings);
    await fetch('/findings', {method: 'POST', body: JSON.stringify({number: job.number, findings})});
  }
}

work();
