// What a page relies on in web/spoonwing.mjs and what no comparison of bytes sees: what the module
// takes and gives, that memory is taken once, and what is thrown back before a call is made.
//
//     node glue.mjs spoonwing.wasm
import assert from 'node:assert/strict';
import { readFileSync } from 'node:fs';
import test from 'node:test';
import { load } from '../../../web/spoonwing.mjs';

const bytes = readFileSync(process.argv[2]);
const header = readFileSync(new URL('../../../include/spoonwing.h', import.meta.url), 'utf8');
const [WIDTH, HEIGHT] = [320, 200];
const PICTURE = 4 * WIDTH * HEIGHT;

// The stack lies first in memory and grows downward.
const STACK = 65536;

// Eight layers all over the screen: lists, pictures and floats by turns.
function words() {
    const size = WIDTH + HEIGHT * 65536;
    const layers = [3, 1, 5, 3, 1, 5, 3, 3].flatMap((bits, n) => [
        [4 + 6 * n, bits + n * 256],
        [5 + 6 * n, 0x80000000 + 200],
        [7 + 6 * n, size],
    ]);
    return [[0, 5], [1, size], [2, 0x302010], ...layers];
}

// What a host has; its lists are any bytes.
function scene() {
    return {
        state: new Uint8Array(440),
        tables: Uint8Array.from({ length: 29696 }, (_, i) => i * 37 + (i >> 5)),
        pictures: new Uint8Array(2 * PICTURE).fill(90),
        floats: new Float32Array(2 * PICTURE).fill(0.25),
        output: new Uint8ClampedArray(PICTURE),
    };
}

function start(calls, { state }) {
    assert.equal(calls.spoonwing_display_new(state, 1), 0);
    for (const [register, value] of words()) {
        assert.equal(calls.spoonwing_display_write(state, register, value), 0);
    }
    assert.equal(calls.spoonwing_display_start(state), 0);
}

function paint(calls, { state, tables, pictures, floats, output }) {
    assert.equal(calls.spoonwing_display_frame(state, tables, pictures, floats, output), 0);
}

test('the module takes nothing, and gives the calls of the header and its memory', async () => {
    const module = await WebAssembly.compile(bytes);
    const names = [...header.matchAll(/^uint32_t (spoonwing_\w+)\(/gm)].map((match) => match[1]);
    const given = WebAssembly.Module.exports(module).map(({ name }) => name);
    assert.deepEqual(WebAssembly.Module.imports(module), []);
    assert.equal(names.length, 18);
    assert.deepEqual(given.sort(), [...names, 'memory', '__heap_base'].sort());
    assert.deepEqual(Object.keys(await load(bytes)).sort(), [...names, 'arena'].sort());
});

test('frame after frame is painted in the same memory', async () => {
    const [calls, all] = [await load(bytes), scene()];
    start(calls, all);
    paint(calls, all);
    const [first, memory] = [all.output.slice(), calls.arena.memory.buffer];
    assert.ok(new Set(first).size > 2, 'something is painted');
    for (let i = 0; i < 20; i++) paint(calls, all);
    assert.equal(calls.arena.memory.buffer, memory);
    assert.deepEqual(all.output, first);
});

// Nothing stands in the stack between two calls. What is seen of memory is taken anew each time, since
// it is void once that has grown.
test('less than 32 KiB of stack are taken', async () => {
    const [calls, all] = [await load(bytes), scene()];
    const { state, tables, pictures, floats, output } = all;
    const stack = () => new Uint8Array(calls.arena.memory.buffer, 0, STACK);
    const line = output.subarray(0, 4 * WIDTH);
    start(calls, all);
    stack().fill(0xa5);
    paint(calls, all);
    assert.equal(calls.spoonwing_display_line(state, 3, tables, pictures, floats, line), 0);
    const lowest = stack().findIndex((byte) => byte !== 0xa5);
    assert.ok(lowest > 0 && STACK - lowest < 32768, `${STACK - lowest} bytes`);
});

test('what the module would take for something else is thrown back', async () => {
    const calls = await load(bytes);
    const state = new Uint8Array(440).fill(7);
    const [list, count] = [new Uint32Array(156), new BigUint64Array(1)];
    const bad = [-1, 1.5, NaN, 2 ** 32, undefined, null, '1', 1n];
    for (const n of bad) assert.throws(() => calls.spoonwing_display_new(state, n), RangeError);
    assert.throws(() => calls.spoonwing_display_put(state, state, 256), RangeError);
    for (const it of [undefined, null, 0, [], new Float32Array(440), new ArrayBuffer(440)]) {
        assert.throws(() => calls.spoonwing_display_new(it, 1), TypeError);
    }
    assert.throws(() => calls.spoonwing_display_new(state), TypeError);
    assert.throws(() => calls.spoonwing_display_new(state, 1, 1), TypeError);
    assert.throws(() => calls.spoonwing_mend(state, new Uint32Array(155), count), RangeError);
    assert.throws(() => calls.spoonwing_mend(state, list, new BigUint64Array(0)), RangeError);
    assert.ok(state.every((byte) => byte === 7), 'nothing was done');
    assert.equal(calls.spoonwing_display_new(state, 1), 0);
});
