// The display as a WebAssembly module, for a page and for node alike: `load` takes the bytes of
// spoonwing.wasm (`tools/native wasm32`) and gives its eighteen calls, by the names and with the
// promises of include/spoonwing.h. A pointer and its length are one array here:
//
//   Uint8Array, Uint8ClampedArray   bytes
//   Float32Array                    the floats of a shader
//   Uint32Array of 156              the list of spoonwing_mend
//   BigUint64Array of 1             the count of a run, or of changes
//
// All else that a call takes, and what it answers, is a whole number.
//
//     const { spoonwing_display_new } = await load(bytes);
//     const state = new Uint8Array(440);
//     if (spoonwing_display_new(state, 1) !== 0) ...
//
// The module reaches its own memory alone. So each call lays what it is lent in one arena there, and
// takes back what may have been written. The next call lays its own in the same place: once the
// largest frame was painted the memory grows no more. Nothing here is proved.

// ---- what calls take

// Kinds of arrays. One without a length here may have any, and the module is told it.
const read = { of: [Uint8Array, Uint8ClampedArray] };
const written = { ...read, isWritten: true };
const floats = { of: [Float32Array] };
const list = { of: [Uint32Array], isWritten: true, length: 156 };
const count = { of: [BigUint64Array], isWritten: true, length: 1 };

// Kinds of numbers.
const number = { most: 0xffffffff };
const byte = { most: 0xff };

// In the header's order, each length left out.
const CALLS = {
    spoonwing_frame: [read, number, read, read, written],
    spoonwing_mend: [written, list, count],
    spoonwing_display_new: [written, number],
    spoonwing_display_write: [written, number, number],
    spoonwing_display_write_run: [written, read, count],
    spoonwing_display_select: [written, number],
    spoonwing_display_put: [written, written, byte],
    spoonwing_display_put_run: [written, written, read, count],
    spoonwing_display_start: [written],
    spoonwing_display_fill: [written, written],
    spoonwing_display_paint: [written, number, number, read, read, floats, written],
    spoonwing_display_frame: [written, read, read, floats, written],
    spoonwing_display_line: [written, number, read, read, floats, written],
    spoonwing_display_toggle: [written, number],
    spoonwing_display_error_word: [read],
    spoonwing_display_frame_number: [read],
    spoonwing_display_output_width: [read],
    spoonwing_display_output_height: [read],
};

// Refuses what the module would take for something else: 2^32 for 0, or a short list for a whole one.
function ask(kind, given, place) {
    if (!kind.of) {
        if (Number.isInteger(given) && given >= 0 && given <= kind.most) return;
        throw new RangeError(`argument ${place} is no whole number from 0 to ${kind.most}`);
    }
    if (!kind.of.some((type) => given instanceof type)) {
        throw new TypeError(`argument ${place} is no ${kind.of[0].name}`);
    }
    if (kind.length && given.length !== kind.length) {
        throw new RangeError(`argument ${place} has a length of ${given.length}, not ${kind.length}`);
    }
}

// ---- memory

const PAGE = 65536;

// Room for what one call is lent, from the first free address of the module's memory on.
export class Arena {
    constructor(memory, first) {
        this.memory = memory;
        this.first = first;
        this.end = first;
    }

    // Begins anew; what was placed is not needed any more.
    clear() {
        this.end = this.first;
    }

    // The address of so many bytes, one that sixteen divides: no array asks for more.
    place(length) {
        const at = Math.ceil(this.end / 16) * 16;
        this.end = at + length;
        return at;
    }

    // The memory with all that was placed. Where it grows, what was seen of it before is void.
    bytes() {
        const missing = this.end - this.memory.buffer.byteLength;
        if (missing > 0) this.memory.grow(Math.ceil(missing / PAGE));
        return new Uint8Array(this.memory.buffer);
    }
}

// An array's bytes as they stand: a copy number by number may change the bits of a float that is none.
function bytesOf(array) {
    return new Uint8Array(array.buffer, array.byteOffset, array.byteLength);
}

// ---- calls

// What the module is given: a number as it is, an array by its address and its length, a number of 64
// bits, where it has not always the same.
function words(kind, given, at) {
    if (!kind.of) return [given];
    return kind.length ? [at] : [at, BigInt(given.length)];
}

// One call. All is placed before anything is copied, since the memory may grow for the last.
function call(exported, kinds, arena, given) {
    if (given.length !== kinds.length) throw new TypeError(`it takes ${kinds.length} arguments`);
    given.forEach((it, i) => ask(kinds[i], it, i + 1));
    arena.clear();
    const at = given.map((it, i) => kinds[i].of && arena.place(it.byteLength));
    const memory = arena.bytes();
    given.forEach((it, i) => kinds[i].of && memory.set(bytesOf(it), at[i]));
    const answer = exported(...given.flatMap((it, i) => words(kinds[i], it, at[i])));
    given.forEach((it, i) => {
        if (kinds[i].isWritten) bytesOf(it).set(memory.subarray(at[i], at[i] + it.byteLength));
    });
    return answer >>> 0; // out of the module it comes with a sign
}

// The calls of the module with these bytes, by name. A test lends memory by an arena of its own.
export async function load(bytes, Lender = Arena) {
    const { instance } = await WebAssembly.instantiate(bytes, {});
    const { memory, __heap_base: first, ...exported } = instance.exports;
    const arena = new Lender(memory, first.value);
    const calls = Object.entries(CALLS).map(([name, kinds]) => [
        name,
        (...given) => call(exported[name], kinds, arena, given),
    ]);
    return { ...Object.fromEntries(calls), arena };
}
