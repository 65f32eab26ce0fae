// node count.js FILE PATTERN FLAGS all|first|again|compile: prints the number of matches, and the CPU seconds and the
// seconds of the search; with `again` of the first match, with `compile` of compiling and of the first match together,
// each the mean of many runs.
const [file, pattern, flags, mode] = process.argv.slice(2);
const text = require('fs').readFileSync(file, 'utf8');
// JavaScript has v or u, not both
const letters = flags.includes('v') ? flags.replace('u', '') : flags;
// How long it is run again and again, in microseconds.
const SPENT = 5e4;
// How often a search is repeated between two looks at the clock.
const REPEATED = 100;
let regex;
try {
  regex = new RegExp(pattern, letters + 'g');
} catch {
  process.exit(1);
}
// Runs a search again and again, `times` times between two looks at the clock, prints the number of matches and the mean
// time, and ends.
function repeat(times, search) {
  const before = process.cpuUsage();
  let used = 0, runs = 0, found;
  while (used < SPENT) {
    for (let i = 0; i < times; i++) found = search(runs + i);
    runs += times;
    const { user, system } = process.cpuUsage(before);
    used = user + system;
  }
  console.log(found ? 1 : 0, used / runs / 1e6, used / runs / 1e6);
  process.exit();
}

if (mode === 'again') {
  const once = new RegExp(pattern, letters);
  repeat(REPEATED, () => once.exec(text));
}
// V8 keeps what it has compiled for the same source, so another alternative, which never matches, is added.
if (mode === 'compile') repeat(1, run => new RegExp(`${pattern}|[]${run}`, letters).exec(text));
const started = performance.now();
const before = process.cpuUsage();
let count = 0;
for (const _ of text.matchAll(regex)) {
  count += 1;
  if (mode === 'first') break;
}
const used = process.cpuUsage(before);
console.log(count, (used.user + used.system) / 1e6, (performance.now() - started) / 1e3);
