// Makes trees, each in the place of an older one: trees.js ROUNDS.
'use strict';

const DEPTH = 12;
const KEPT = 16;

function grow(depth) {
  return depth === 0 ? { left: null, right: null } : { left: grow(depth - 1), right: grow(depth - 1) };
}

function count(node) {
  return node === null ? 0 : 1 + count(node.left) + count(node.right);
}

const rounds = Number(process.argv[2]);
const kept = Array(KEPT).fill(null);
for (let round = 0; round < rounds; round++) {
  kept[round % KEPT] = grow(DEPTH);
}
console.log(kept.reduce((nodes, tree) => nodes + count(tree), 0));
