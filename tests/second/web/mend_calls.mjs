// Makes the calls of spoonwing_mend that it reads on the WebAssembly module: what mend_calls.c is for
// the archive, request by request and byte by byte.
import { bytesOf, lend, loadGuarded } from './lent.mjs';
import { numbers, readBytes, readNumbers, tell } from './pipes.mjs';

const LIST_LENGTH = 156 * 4;
const COUNT_LENGTH = 8;

const { spoonwing_mend, arena } = await loadGuarded();

function doCall([length, nullIfEmpty, ...past]) {
    const image = lend(Uint8Array, readBytes(length), past[0]);
    const list = lend(Uint32Array, readBytes(LIST_LENGTH), past[1]);
    const count = lend(BigUint64Array, readBytes(COUNT_LENGTH), past[2]);
    arena.askFor(past, nullIfEmpty !== 0);
    const answer = spoonwing_mend(image, list, count);
    const touched = arena.isTouched([null, null, null]) ? 1 : 0;
    tell(numbers(answer, touched), bytesOf(image), bytesOf(list), bytesOf(count));
}

for (let head; (head = readNumbers(5)); ) doCall(head);
