// Requests on standard input and what is told on standard output, as the C programs have them. Reads
// wait: a request comes whole before anything is told.
import { readSync, writeSync } from 'node:fs';

// So many bytes, or null where the input ends before them.
function read(length) {
    const bytes = Buffer.alloc(length);
    for (let have = 0, more; have < length; have += more) {
        more = readSync(0, bytes, have, length - have, null);
        if (more === 0) return null;
    }
    return bytes;
}

// So many numbers of 32 bits, little-endian, or null where there is no further request.
export function readNumbers(count) {
    const bytes = read(4 * count);
    return bytes && Array.from({ length: count }, (_, i) => bytes.readUInt32LE(4 * i));
}

// Ends the program where a request is none.
export function must(isRight) {
    if (!isRight) process.exit(2);
}

// Bytes that a request has to have.
export function readBytes(length) {
    const bytes = read(length);
    must(bytes !== null);
    return bytes;
}

// Numbers of 32 bits as they are told.
export function numbers(...all) {
    const bytes = Buffer.alloc(4 * all.length);
    all.forEach((n, i) => bytes.writeUInt32LE(n, 4 * i));
    return bytes;
}

export function tell(...parts) {
    const bytes = Buffer.concat(parts);
    for (let done = 0; done < bytes.length; ) done += writeSync(1, bytes, done);
}
