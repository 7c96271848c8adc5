// Matches the lines of a file as VS Code's problem matchers do, by the patterns of tasks.json, and writes what they find.
'use strict';
const fs = require('fs');

const [, , tasks, text] = process.argv;
const lines = fs.readFileSync(text, 'utf8').split('\n');

/** What the patterns find in the lines from this one on, or null. Messages of several lines are put together. */
function matched(patterns, at) {
  const found = { file: '', line: '0', column: '0', message: [] };
  for (const [n, pattern] of patterns.entries()) {
    const match = new RegExp(pattern.regexp).exec(lines[at + n] ?? '');
    if (match === null) return null;
    for (const key of ['file', 'line', 'column']) if (pattern[key]) found[key] = match[pattern[key]];
    found.message.push(match[pattern.message]);
  }
  return found;
}

const { problemMatcher } = JSON.parse(fs.readFileSync(tasks, 'utf8')).tasks[0];
lines.forEach((_, at) => {
  for (const { severity, pattern } of problemMatcher) {
    const found = matched([pattern].flat(), at);
    if (found) console.log([severity[0].toUpperCase(), found.file, found.line, found.column, found.message.join('; ')].join('|'));
  }
});
