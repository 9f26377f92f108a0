'use strict';
// Colours of sources. A source stands in the page as plain text, and is only cut into spans here.
const TOKENS = new RegExp([
  /(#.*)/, /('[^'\n]*'|"[^"\n]*")/, /\b(import|as|del|True|False|None)\b/, /\b(\d+)\b/, /\b(print|abs|buffer)\b/,
  /\.(\w+)(?=\()/,
].map(part => part.source).join('|'), 'g');
const CLASSES = [, 'c', 's', 'k', 'n', 'f', 'f'];

function colour(pre, text) {
  pre.textContent = '';
  let at = 0;
  for (const match of text.matchAll(TOKENS)) {
    const group = match.findIndex((part, i) => i && part !== undefined), word = match[group];
    const begin = match.index + match[0].length - word.length;
    const span = Object.assign(document.createElement('span'), { className: CLASSES[group], textContent: word });
    pre.append(text.slice(at, begin), span);
    at = begin + word.length;
  }
  pre.append(text.slice(at));
}

for (const pre of document.querySelectorAll('.code > pre.source')) colour(pre, pre.textContent);
document.getElementById('hide').onclick = () => document.body.classList.toggle('no-code');
