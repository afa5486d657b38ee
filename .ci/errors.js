// The parse errors that parse5 reports, for `.ci/errors` and `.ci/tree-errors`: each line of standard input is a list, each line of standard
// output the list of the errors of its items: of each its name, its line, and its column in code units of UTF-16. An item is a text, which is
// parsed as a document with scripting, or a text, true or false for scripting, and the name of its context or null.
'use strict';
const parse5 = require('parse5'), readline = require('readline');
const SPACES = {svg: parse5.html.NS.SVG, math: parse5.html.NS.MATHML};

function parserOf(context, options) {
  if (!context) return new parse5.Parser(options);
  const [space, name] = context.includes(' ') ? context.split(' ') : ['', context];
  return parse5.Parser.getFragmentParser(parse5.defaultTreeAdapter.createElement(name, SPACES[space] || parse5.html.NS.HTML, []), options);
}

function errorsOf(item) {
  const errors = [], [text, scriptingEnabled, context] = typeof item === 'string' ? [item, true, null] : item;
  const parser = parserOf(context, {scriptingEnabled, onParseError: e => errors.push([e.code, e.startLine, e.startCol])});
  parser.tokenizer.write(text, true);
  return errors;
}

readline.createInterface({input: process.stdin}).on('line', line => {
  process.stdout.write(JSON.stringify(JSON.parse(line).map(errorsOf)) + '\n');
});
