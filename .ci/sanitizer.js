// What is left of parse5's trees by the definition in crates/h5_clean/specs, and what is wrong with a cleaned text. `.ci/sanitizer`
// runs it: each line of standard input is a list of texts, each as it was, cleaned, and cleaned again; each line of standard output is
// the list of what differs, for each text a list of what it is about, what was wanted and what came.
'use strict';
const parse5 = require('parse5'), readline = require('readline');
const HTML = 'http://www.w3.org/1999/xhtml';
const words = text => text.split(' ');
const setOf = text => new Set(words(text));

// The kinds of names, and names that have a kind but aren't let through.
const KINDS = {
  phrase: 'abbr bdi bdo cite data del dfn ins kbd label mark meter output progress q samp span sub sup time var',
  formatted: 'b big code em font i s small strike strong tt u',
  division: 'address dialog div',
  barrier: 'article aside blockquote center details dir dl fieldset figcaption figure footer header hgroup main menu nav ol section ' +
    'summary ul',
  break: 'br img wbr', heading: 'h1 h2 h3 h4 h5 h6', describing: 'dd dt', section: 'tbody tfoot thead', cell: 'td th', link: 'a',
  paragraph: 'p', item: 'li', row: 'tr', preformatted: 'pre', ruled: 'hr', table: 'table', caption: 'caption', columns: 'colgroup',
  column: 'col', ruby: 'ruby', rubyText: 'rp rt',
};
const KIND_OF = new Map(Object.entries(KINDS).flatMap(([kind, names]) => words(names).map(name => [name, kind])));
const UNNAMED = setOf('center dialog dir fieldset big font label meter output progress menu');
const DROPPED = setOf('script style template iframe object embed applet noscript noembed noframes xmp plaintext textarea title select ' +
  'head frameset audio video canvas');
const VOID = setOf('br img wbr hr col');
const DEPTH = 256, REL = 'noopener noreferrer';

// The attributes that each element keeps, and those of some; the schemes of URLs.
const GLOBAL = setOf('title lang dir');
const KEPT = {
  a: 'href', img: 'src alt width height', td: 'colspan rowspan headers', th: 'colspan rowspan headers scope', col: 'span', colgroup: 'span',
  ol: 'start reversed type', li: 'value', time: 'datetime', del: 'datetime', ins: 'datetime', data: 'value', details: 'open', code: 'class',
};
const KEPT_BY = {align: setOf('td th p div img h1 h2 h3 h4 h5 h6'), cite: setOf('blockquote q del ins')};
const SCHEMES = {href: setOf('http https mailto'), cite: setOf('http https mailto'), src: setOf('http https')};

// What may stand in parts of tables, what may stand in flow whatever is open, and what a `p` in the way forbids. Beside these, the text
// of a `ruby` may stand right in one.
const PARTS = {table: setOf('caption columns section'), columns: setOf('column'), section: setOf('row'), row: setOf('cell')};
const ANYWHERE = setOf('phrase formatted break ruby link');
const NOT_IN_P = setOf('division barrier preformatted paragraph heading item describing ruled table');
// Which kinds are open to what they hold, each of which forbids itself; and through which an item is seen.
const OPENS = {paragraph: 'paragraph', heading: 'heading', item: 'item', describing: 'describing', link: 'link'};
const SEEN_THROUGH = setOf('division paragraph formatted phrase ruby rubyText link');
const NOTHING_OPEN = {spot: 'flow', paragraph: false, heading: false, item: false, describing: false, link: false, ruby: false};
const FIRST = {...NOTHING_OPEN, item: true, describing: true, room: DEPTH};

// Whether an element of a kind may begin at a place.
function fits(kind, place) {
  if (place.room === 0) return false;
  if (place.spot !== 'flow') return place.spot in PARTS && PARTS[place.spot].has(kind);
  if (kind === 'rubyText') return place.ruby;
  if (place[OPENS[kind]]) return false;
  return ANYWHERE.has(kind) || (NOT_IN_P.has(kind) && !place.paragraph);
}

// Where what an element of a kind holds stands.
function inside(kind, place) {
  const room = place.room - 1;
  if (kind in PARTS) return {...place, spot: kind, room};
  if (kind === 'caption' || kind === 'cell') return {...NOTHING_OPEN, room};
  const inner = {...place, spot: 'flow', heading: false, ruby: kind === 'ruby', room};
  if (!SEEN_THROUGH.has(kind)) inner.item = inner.describing = false;
  if (kind in OPENS) inner[OPENS[kind]] = true;
  return inner;
}

// A text as it is left, and what the policy says of names.
const readable = text => text.replace(/\0/g, '').replace(/\r/g, '\n');
const isNamed = name => KIND_OF.has(name) && !UNNAMED.has(name);
const isKept = (element, name) =>
  GLOBAL.has(name) || words(KEPT[element] || '').includes(name) || (name in KEPT_BY && KEPT_BY[name].has(element));

// The scheme of a URL in small letters, or nothing.
function schemeOf(url) {
  const found = /^([a-z][a-z0-9+.-]*):/i.exec(url.replace(/^[\0-\x20]+/, '').replace(/[\t\n\r]/g, ''));
  return found && found[1].toLowerCase();
}

// Whether a value may be kept: a URL, and a class.
function isGood(name, value) {
  if (name === 'class') return /^language-[^ \t\n\f]*$/.test(value);
  const scheme = schemeOf(value);
  return !(name in SCHEMES) || scheme === null || SCHEMES[name].has(scheme);
}

// What is left of an element's attributes.
function attributesLeft(element) {
  const left = [];
  for (const attribute of element.attrs) {
    const name = attribute.name, value = readable(attribute.value);
    if (!attribute.namespace && isKept(element.tagName, name) && isGood(name, value)) left.push({name, value});
  }
  if (element.tagName === 'a') left.push({name: 'rel', value: REL});
  return left;
}

// Puts a text behind nodes, of which the last may be one.
function putText(text, nodes) {
  const last = nodes[nodes.length - 1];
  if (last && last.nodeName === '#text') last.value += text;
  else if (text) nodes.push({nodeName: '#text', value: text});
}

// Takes from the front of the first node, if it is a text.
function takeFromFront(nodes, what) {
  if (!nodes.length || nodes[0].nodeName !== '#text') return nodes;
  const value = nodes[0].value.replace(what, '');
  return value ? [{nodeName: '#text', value}, ...nodes.slice(1)] : nodes.slice(1);
}

// What is left of nodes at a place, behind other nodes.
function putLeft(nodes, place, out) {
  for (const node of nodes) {
    if (node.nodeName === '#text') putText(textLeft(node.value, place.spot), out);
    else if (node.tagName) putElement(node, place, out);
  }
  return out;
}

// In flow any text, in tables and their parts blanks.
function textLeft(text, spot) {
  const left = readable(text);
  return spot === 'flow' || /^[ \t\n\f]*$/.test(left) ? left : '';
}

// The element, if it is let through; what is left of what it holds, if not; nothing, if it is dropped.
function putElement(element, place, out) {
  const name = element.tagName, kind = KIND_OF.get(name), isHtml = element.namespaceURI === HTML;
  if (isHtml && isNamed(name) && fits(kind, place)) {
    const held = VOID.has(name) ? [] : putLeft(element.childNodes, inside(kind, place), []);
    out.push({tagName: name, namespaceURI: HTML, attrs: attributesLeft(element), childNodes: held});
  } else if (isHtml && (!DROPPED.has(name) || isNamed(name))) putLeft(element.childNodes, place, out);
}

// How texts and attributes are written.
const REFERENCES = {'&': '&amp;', '\u00a0': '&nbsp;', '<': '&lt;', '>': '&gt;', '"': '&quot;'};
const textWritten = text => text.replace(/[&\u00a0<>]/g, c => REFERENCES[c]);
const valueWritten = text => text.replace(/[&\u00a0<>"]/g, c => REFERENCES[c]);
const attributesWritten = attrs => attrs.map(a => ` ${a.prefix ? a.prefix + ':' : ''}${a.name}="${valueWritten(a.value)}"`).join('');

// What a `pre` begins with is a newline more where it begins with one, since a reader takes one.
const doubled = element => element.tagName === 'pre' && element.childNodes[0]?.value?.startsWith('\n') ? '\n' : '';

// Nodes as a text. What can't be in a cleaned text is written so that it is seen.
function written(nodes) {
  return nodes.map(node => {
    if (node.nodeName === '#text') return textWritten(node.value);
    if (!node.tagName) return `<!${node.nodeName} ${node.data}>`;
    const name = node.namespaceURI === HTML ? node.tagName : `${node.namespaceURI} ${node.tagName}`;
    const start = `<${name}${attributesWritten(node.attrs)}>`;
    return VOID.has(name) && !node.childNodes.length ? start : `${start}${doubled(node)}${written(node.childNodes)}</${name}>`;
  }).join('');
}

// What parse5 reads of a text, inside of an element of this name.
function read(text, context) {
  return parse5.parseFragment(parse5.defaultTreeAdapter.createElement(context, HTML, []), text, {}).childNodes;
}

// What is left of a text: as it is read of a file, without one U+FEFF at its front, and then without any.
function cleaned(text) {
  const left = putLeft(read(text.replace(/^\ufeff/, ''), 'div'), FIRST, []);
  return written(takeFromFront(left, /^\ufeff+/));
}

// Whether a URL leads where it may by Node's own reader of URLs; one that it can't read leads nowhere.
function leadsWhereItMay(name, value) {
  if (!(name in SCHEMES)) return true;
  try {
    return SCHEMES[name].has(new URL(value, 'https://example.org/').protocol.slice(0, -1));
  } catch {
    return true;
  }
}

// Whether an element may have an attribute.
function mayHave(element, attribute) {
  if (element === 'a' && attribute.name === 'rel') return attribute.value === REL;
  return !attribute.namespace && isKept(element, attribute.name) && leadsWhereItMay(attribute.name, attribute.value);
}

// The first of what the policy doesn't let through.
function forbidden(nodes, depth) {
  for (const node of nodes.filter(node => node.nodeName !== '#text')) {
    if (node.namespaceURI !== HTML || !isNamed(node.tagName)) return node.nodeName;
    if (depth === DEPTH) return `${node.nodeName}, too deep`;
    const attribute = node.attrs.find(attribute => !mayHave(node.tagName, attribute));
    if (attribute) return `${node.tagName} ${attribute.name}="${attribute.value}"`;
    if (node.tagName === 'a' && !node.attrs.some(attribute => attribute.name === 'rel')) return 'a without rel';
    const found = forbidden(node.childNodes, depth + 1);
    if (found) return found;
  }
  return null;
}

// A text in an item of a page.
const inItem = text => `<ol><li><div>${text}</div><b>x</b></li><li>y</li></ol>`;

// What differs of a text that was cleaned, and cleaned again.
function differences([text, left, again]) {
  const found = [], wanted = cleaned(text);
  const put = (about, wanted, came) => { if (wanted !== came) found.push([about, wanted, came]); };
  put('what is left', wanted, left);
  for (const context of ['div', 'td', 'li']) put(`what parse5 reads in a ${context}`, left, written(read(left, context)));
  put('what parse5 reads in an item of a page', inItem(left), written(read(inItem(left), 'div')));
  put('what is left again', left, again);
  put('what the policy lets through', null, forbidden(read(left, 'div'), 0));
  return found;
}

// Answers each line.
async function answer() {
  for await (const line of readline.createInterface({input: process.stdin})) console.log(JSON.stringify(JSON.parse(line).map(differences)));
}

answer();
