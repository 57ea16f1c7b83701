// The program's command line over the calls of the page: node program.mjs PAGE WORD..
//
// The worker's script and the module are taken out of the page as it is. Beside the program's commands,
// `station FILE NAME` gives all of a station, `table FILE NAME TABLE` all of a table, `list-rows FILE` a list as rows, `explanation LINE` the parts of an explanation, `explanation-bytes FILE` of the bytes of a file, `place LINE FILE [OTHER]` tells where a refusal stands,
// `instrument FILE [LANGUAGE]` what a file recorded of instrument and time, by the number of a language,
// `digest FILE NAME` gives the line of its digest with this name, `change FILE N..` the copy with changes,
// each `N` or `N=NAME`, `records FILE N` its records with the separator of this number, `mark-rows FILE` what `mark` is told, with rows in the place of its notes and the line
// of a refusal in that of the copy, and `time COMMAND WORD..` the milliseconds that the fastest of some runs takes. With
// `--room=N` each text has room for so many bytes, and a call is not made again with more; with `--left=N`
// so many pages of memory are left to a call, of all that 32 bits address.
import fs from 'node:fs';
import vm from 'node:vm';
import zlib from 'node:zlib';

const DEFAULTS = {
  '--two-c': 2000, '--two-i': 2000, '--residual': null, '--within': null, '--decimals': 6, '--room': null,
  '--left': null, '--unit': 0,
};
/** The options by which a table has another unit than gon, and their numbers. */
const UNITS = { '--degrees': 1, '--dmmss': 2 };
/** The languages of a report: the place of each is its number. */
const LANGUAGES = ['en', 'de', 'fr'];
const RUNS = 5, PAGE_BYTES = 65536, MOST_PAGES = 65536;

const [page, ...words] = process.argv.slice(2);
const text = fs.readFileSync(page, 'utf8');
const part = id => text.match(new RegExp(`<script id="${id}"[^>]*>([^]*?)</script>`))[1];

globalThis.onmessage = null; // what a worker hears by
const LETTERS = '0123456789ABCDEFGHIJKLMNOPQRSTUVWXYZabcdefghijklmnopqrstuvwxyz!#$%&()*+-;<=>?@^_`{|}~';
const bytesOfGroup = ([letters]) => {
  const four = Buffer.alloc(4);
  four.writeUInt32BE([...letters.padEnd(5, '~')].reduce((sum, one) => 85 * sum + LETTERS.indexOf(one), 0));
  return four.subarray(0, letters.length - 1);
};
const unpacked = id => zlib.gunzipSync(Buffer.concat([...part(id).matchAll(/[^]{1,5}/g)].map(bytesOfGroup)));
vm.runInThisContext(JSON.parse(String(unpacked('stored'))).calls);
const calls = vm.runInThisContext('calls');
const core = await WebAssembly.compile(unpacked('module'));

const options = { ...DEFAULTS }, operands = [];
// The columns of a table that are stated, or none; and their titles, where these are.
let columns = [0, 0], titles;
// Whether rows have semicolons and decimal commas.
let hasCommas = false;
// The language of a report, by its number.
let language = 0;
// What is stated to `mark`: texts, of which each stands on a line, and flags.
const stated = { '--station': [], '--station-code': [], '--sets': [], '--targets': [] };
const flags = { '--same-set-up': false, '--again': false, '--others': false };
while (words.length > 0) {
  const whole = words.shift(), [, word = whole, value] = whole.match(/^(--[^=]*)(?:=([^]*))?$/) ?? [];
  if (word in stated) stated[word].push(value ?? words.shift());
  else if (word in flags) flags[word] = true;
  else if (word === '--decimal-comma') hasCommas = true;
  else if (word in UNITS) options['--unit'] = Math.max(options['--unit'], UNITS[word]);
  else if (word === '--language') language = LANGUAGES.indexOf(value ?? words.shift());
  else if (word === '--columns') titles = (value ?? words.shift()).split(',');
  else if (word in options) options[word] = Number(value ?? words.shift());
  else operands.push(word);
}

if (options['--room'] !== null) {
  globalThis.callOf = (core, name, inputs, numbers, texts = 1) =>
    callWithin(options['--room'], core, name, inputs, numbers, texts);
}

if (options['--left'] !== null) {
  const whole = globalThis.grow;
  globalThis.grow = (memory, pages) => {
    const at = whole(memory, pages);
    whole(memory, MOST_PAGES - memory.buffer.byteLength / PAGE_BYTES - options['--left']);
    return at;
  };
}

const bytesOf = file => new Uint8Array(fs.readFileSync(file));
const nameOf = word => new TextEncoder().encode(word);
if (titles?.every(one => /^\d+$/.test(one))) columns = titles.map(Number);
else if (titles) {
  const { status, shown: [bytes] } = await calls.columns(core, bytesOf(operands.at(-1)), ...titles.map(nameOf));
  if (status !== 0) {
    fs.writeFileSync(2, bytes);
    process.exit(status);
  }
  columns = String(Buffer.from(bytes)).split(',').map(Number);
}

const faces = [options['--two-c'], options['--two-i']], form = [options['--unit'], ...columns];

const marked = (call, gsi) => {
  const texts = Object.values(stated).map(lines => nameOf(lines.join('\n')));
  return calls[call](core, bytesOf(gsi), ...texts, ...Object.values(flags));
};

const answers = {
  check: (gsi, sheet) => calls.check(core, bytesOf(gsi), bytesOf(sheet), ...faces, options['--residual']),
  list: gsi => calls.list(core, bytesOf(gsi), ...faces),
  'list-rows': gsi => calls.listRows(core, bytesOf(gsi), ...faces),
  means: (gsi, name) => calls.means(core, bytesOf(gsi), nameOf(name), ...faces),
  words: (gsi = 0) => calls.words(core, bytesOf(gsi)),
  directions: (gsi, name) => calls[hasCommas ? 'commaDirections' : 'directions'](
    core, bytesOf(gsi), nameOf(name), ...faces, options['--decimals']),
  'comma-rows': (gsi, name) => calls.commaRows(core, bytesOf(gsi), nameOf(name), ...faces),
  residuals: (gsi, name) => calls.residuals(core, bytesOf(gsi), nameOf(name), ...faces),
  report: (gsi, name) =>
    calls.report(core, bytesOf(gsi), nameOf(gsi), nameOf(name), ...faces, language),
  station: (gsi, name) => calls.station(
    core, bytesOf(gsi), nameOf(gsi), nameOf(name), ...faces, options['--decimals']),
  compare: (gsi, name, table) => calls.compare(
    core, bytesOf(gsi), bytesOf(table), nameOf(name), ...faces, ...form, options['--within']),
  differences: (gsi, name, table) => calls[hasCommas ? 'commaDifferences' : 'differences'](
    core, bytesOf(gsi), bytesOf(table), nameOf(name), ...faces, ...form),
  table: (gsi, name, table) => calls.table(core, bytesOf(gsi), nameOf(gsi), bytesOf(table), nameOf(table),
    nameOf(name), ...faces, ...form, options['--within']),
  mark: gsi => marked('mark', gsi),
  'mark-rows': gsi => marked('markRows', gsi),
  records: (file, separator) => calls.records(core, bytesOf(file), Number(separator)),
  change: (gsi, ...changes) => calls.change(core, bytesOf(gsi), nameOf(changes.join('\n'))),
  digest: (file, name) => calls.digest(core, bytesOf(file), nameOf(name)),
  explanation: line => calls.explanation(core, nameOf(line)),
  'explanation-bytes': file => calls.explanation(core, bytesOf(file)),
  instrument: (gsi, language = 0) => calls.instrument(core, bytesOf(gsi), Number(language)),
  place: (line, gsi, other) => calls.place(
    core, nameOf(line), bytesOf(gsi), other ? bytesOf(other) : nameOf('')),
  time: async (command, ...rest) => {
    const took = [];
    for (let run = 0; run < RUNS; run++) {
      const start = performance.now();
      await answers[command](...rest);
      took.push(performance.now() - start);
    }
    return { status: 0, shown: [nameOf(`${Math.round(Math.min(...took))}\n`)] };
  },
};

const [command = 'words', ...rest] = operands;
const { status, shown } = await answers[command](...rest);
if (['compare', 'differences'].includes(command) && status === 1) {
  // The note of a table stands before the line of a refusal.
  for (const bytes of [...shown].reverse()) fs.writeFileSync(2, bytes);
} else {
  const streams = shown.length === 2 ? [1, 2] : [status === 0 ? 1 : 2];
  shown.forEach((bytes, nth) => fs.writeFileSync(streams[nth], bytes));
}
process.exitCode = status;
