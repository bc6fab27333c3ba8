// Writes the pauses of the collector that Node reports, in ms: PAUSES=LOG node --require ./observer.js PROGRAM.
'use strict';

const fs = require('fs');
const { PerformanceObserver, performance } = require('perf_hooks');

// Entries reach the program when it is idle, so they are waited for once it has nothing left to do.
const PATIENCE = 50;
const KINDS = { 1: 'minor', 4: 'major', 8: 'incremental', 16: 'weak' };

const file = process.env.PAUSES || 'node.pauses.log';
const lines = [];
let end;

// What comes while they are waited for isn't the program's.
function take(entries) {
  for (const entry of entries.filter((it) => end === undefined || it.startTime < end)) {
    lines.push(`gc ${entry.startTime} ${entry.duration} ${KINDS[entry.detail.kind] || 'other'}`);
  }
}

const observer = new PerformanceObserver((list) => take(list.getEntries()));
observer.observe({ entryTypes: ['gc'] });

process.once('beforeExit', () => {
  end = performance.now();
  setTimeout(() => {}, PATIENCE);
});

process.on('exit', () => {
  take(observer.takeRecords());
  if (end === undefined) {
    lines.push('# the program ended itself, so the last pauses may be missing');
    end = performance.now();
  }
  fs.writeFileSync(file, [...lines, `end ${end}`, ''].join('\n'));
});
