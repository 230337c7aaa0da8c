// Makes the calls of spoonwing_frame that it reads on the WebAssembly module: what host_calls.c is for
// the archive, request by request and byte by byte.
import { bytesOf, lend, loadGuarded } from './lent.mjs';
import { numbers, readBytes, readNumbers, tell } from './pipes.mjs';

const { spoonwing_frame, arena } = await loadGuarded();

// A host's arrays begin anywhere: each call has other places.
let past = 0;

function doCall([frame, nullIfEmpty, ...lengths]) {
    const owned = lengths.map(readBytes);
    const pasts = lengths.map((_, i) => past++ + 5 * i);
    const [image, tables, pictures, output] = owned.map((it, i) => lend(Uint8Array, it, pasts[i]));
    arena.askFor(pasts, nullIfEmpty !== 0);
    const answer = spoonwing_frame(image, frame, tables, pictures, output);
    const inputs = [image, tables, pictures];
    const isSpoilt = inputs.some((it, i) => !bytesOf(it).equals(owned[i]));
    const isTouched = arena.isTouched([...owned.slice(0, 3), null]);
    tell(numbers(answer, isSpoilt || isTouched ? 1 : 0), bytesOf(output));
}

for (let head; (head = readNumbers(6)); ) doCall(head);
