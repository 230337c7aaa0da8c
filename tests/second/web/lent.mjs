// What the programs here lend, as lent.h has it for those in C: each array stands between two guards in
// the module's memory, so far past a multiple of 16 as is asked, and one of no bytes may have the
// address 0, which is C's NULL.
import { readFileSync } from 'node:fs';
import { Arena, load } from '../../../web/spoonwing.mjs';

const GUARD = 64;
const ALIGNMENT = 16;
export const GUARD_BYTE = 0xa5;

// An array of a type with a copy of some bytes. It begins somewhere inside of a larger buffer, since a
// user's may.
export function lend(Type, bytes, past) {
    const buffer = new ArrayBuffer(2 * ALIGNMENT + bytes.length);
    const at = ALIGNMENT + (past % ALIGNMENT);
    new Uint8Array(buffer).set(bytes, at);
    return new Type(buffer, at, bytes.length / Type.BYTES_PER_ELEMENT);
}

// The bytes that an array has.
export function bytesOf(array) {
    return Buffer.from(array.buffer, array.byteOffset, array.byteLength);
}

export class Guarded extends Arena {
    // How far past a multiple of 16 each array of the next call begins, and whether one of no bytes has
    // the address 0.
    askFor(past, nullIfEmpty) {
        this.past = past;
        this.nullIfEmpty = nullIfEmpty;
    }

    clear() {
        super.clear();
        this.placed = [];
    }

    place(length) {
        const past = this.past[this.placed.length] % ALIGNMENT;
        const isNull = this.nullIfEmpty && length === 0;
        const at = isNull ? 0 : super.place(2 * GUARD + ALIGNMENT + length) + GUARD + past;
        this.placed.push({ at, length });
        return at;
    }

    bytes() {
        const memory = super.bytes();
        this.guards(memory).forEach((guard) => guard.fill(GUARD_BYTE));
        return memory;
    }

    // Before and behind each array. Before address 0 is nothing; behind it is the end of the stack,
    // which no call reaches, so that a write through NULL is seen.
    guards(memory) {
        return this.placed.flatMap(({ at, length }) => [
            memory.subarray(Math.max(at - GUARD, 0), at),
            memory.subarray(at + length, at + length + GUARD),
        ]);
    }

    // Whether a byte was touched beside an array, or of an input: for each array it is given the bytes
    // that were lent, or nothing for one that may be written.
    isTouched(inputs) {
        const memory = Buffer.from(this.memory.buffer);
        const isGuard = (bytes) => bytes.every((byte) => byte === GUARD_BYTE);
        const isKept = ({ at, length }, i) =>
            !inputs[i] || memory.subarray(at, at + length).equals(inputs[i]);
        return !(this.guards(memory).every(isGuard) && this.placed.every(isKept));
    }
}

// The calls of the module that the program's one word names.
export async function loadGuarded() {
    return load(readFileSync(process.argv[2]), Guarded);
}
