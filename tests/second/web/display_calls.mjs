// Makes the calls of a display that it reads on the WebAssembly module, one row after another: what
// display_calls.c is for the archive, step by step and byte by byte.
import { GUARD_BYTE, bytesOf, lend, loadGuarded } from './lent.mjs';
import { must, numbers, readBytes, readNumbers, tell } from './pipes.mjs';

const ROOM = 1 << 18;
const [STATE, TABLES, PICTURES, FLOATS, OUTPUT, RUN, COUNT] = [0, 1, 2, 3, 4, 5, 6];
const BUFFERS = 7;
const TYPES = Array(BUFFERS).fill(Uint8Array);
TYPES[FLOATS] = Float32Array;
TYPES[COUNT] = BigUint64Array;

const calls = await loadGuarded();

// What each buffer's owner has.
const owned = TYPES.map(() => Buffer.alloc(ROOM));

// ---- calls

// By number: a call's name, and in order the buffers that it is lent and, by a text, the numbers.
const PAINTED = [TABLES, PICTURES, FLOATS, OUTPUT];
const DOORS = [
    ['new', STATE, 'first'],
    ['write', STATE, 'first', 'second'],
    ['select', STATE, 'first'],
    ['toggle', STATE, 'first'],
    ['start', STATE],
    ['put', STATE, TABLES, 'byte'],
    ['fill', STATE, OUTPUT],
    ['paint', STATE, 'first', 'second', ...PAINTED],
    ['frame', STATE, ...PAINTED],
    ['line', STATE, 'first', ...PAINTED],
    ['put_run', STATE, TABLES, RUN, COUNT],
    ['write_run', STATE, RUN, COUNT],
    ['error_word', STATE],
    ['frame_number', STATE],
    ['output_width', STATE],
    ['output_height', STATE],
];
const STORE = DOORS.length;
const BEGIN = STORE + 1;

// Whether a call only reads a buffer.
function isInput(name, buffer) {
    if (buffer === TABLES) return !name.startsWith('put');
    if (buffer === STATE) return DOORS.findIndex((door) => door[0] === name) >= 12;
    return [PICTURES, FLOATS, RUN].includes(buffer);
}

// ---- steps

// Each byte that is another one now, by its place; most calls leave all, which is soon seen.
function changes(before, after) {
    if (before.equals(after)) return numbers(0);
    const places = [...after.keys()].filter((at) => after[at] !== before[at]);
    return numbers(places.length, ...places.flatMap((at) => [at, after[at]]));
}

// Makes a call with arrays that were lent, and answers with whether a byte was touched that none may be.
function makeCall([name, ...takes], { first, second, past, nullIfEmpty }, lent, before) {
    const given = { first, second, byte: first & 255 };
    const buffers = takes.filter((it) => !(it in given));
    calls.arena.askFor(buffers.map((it) => past[it]), nullIfEmpty);
    const answer = calls[`spoonwing_display_${name}`](...takes.map((it) => given[it] ?? lent[it]));
    const isTouched = calls.arena.isTouched(buffers.map((it) => isInput(name, it) && before[it]));
    const isSpoilt = lent.some((it, i) => isInput(name, i) && !bytesOf(it).equals(before[i]));
    return [answer, isTouched || isSpoilt ? 1 : 0];
}

function doCall(door, request) {
    // No run is so long: a count that a call does not write is seen.
    owned[COUNT].fill(GUARD_BYTE, 0, 8);
    const { lengths, past } = request;
    must(lengths.every((it) => it <= ROOM) && lengths[FLOATS] % 4 === 0);
    const before = owned.map((it, i) => Buffer.from(it.subarray(0, lengths[i])));
    const lent = before.map((it, i) => lend(TYPES[i], it, past[i]));
    const told = numbers(...makeCall(door, request, lent, before));
    const after = lent.map(bytesOf);
    tell(told, after[STATE], changes(before[TABLES], after[TABLES]), after[OUTPUT], after[COUNT]);
    after.forEach((it, i) => it.copy(owned[i]));
}

function doStep([step, first, second, nullIfEmpty, ...rest]) {
    const [lengths, past] = [rest.slice(0, BUFFERS), rest.slice(BUFFERS)];
    must(step <= BEGIN);
    if (step === STORE) {
        must(first < BUFFERS && second <= ROOM);
        readBytes(second).copy(owned[first]);
    } else if (step === BEGIN) {
        owned.forEach((it) => it.fill(0));
    } else {
        doCall(DOORS[step], { first, second, nullIfEmpty: nullIfEmpty !== 0, lengths, past });
    }
}

for (let head; (head = readNumbers(4 + 2 * BUFFERS)); ) doStep(head);
