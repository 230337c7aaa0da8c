// Turns floats into bytes by having them painted on the WebAssembly module: what float_bytes.c is for
// the archive, request by request and byte by byte.
import { readFileSync } from 'node:fs';
import { load } from '../../../web/spoonwing.mjs';
import { must, readNumbers, tell } from './pipes.mjs';

const [WIDTH, HEIGHT] = [4095, 256];
const [BAND, FRAME] = [0, 1];
const ALPHA = 1;

// 1.0 by its bits.
const ONE = 0x3f800000;

const display = await load(readFileSync(process.argv[2]));
const state = new Uint8Array(440);
const tables = new Uint8Array(29696);
const none = new Uint8Array(0);

function done(answer) {
    if (answer !== 0) throw new Error(`float_bytes: a call answers ${answer}`);
}

// A display whose layer 0 shows floats all over the screen.
function show(width, height) {
    const size = width + height * 65536;
    done(display.spoonwing_display_new(state, 1));
    for (const [register, value] of [[0, 5], [1, size], [4, 5], [7, size]]) {
        done(display.spoonwing_display_write(state, register, value));
    }
    done(display.spoonwing_display_start(state));
}

// All numbers of so many pixels, by their bits: the floats go on behind the last where pixels are left.
function floatsOf(place, first, step, pixels) {
    const bits = new Uint32Array(4 * pixels).fill(ONE);
    let next = first;
    for (let i = 0; i < bits.length; i++) {
        if ((i % 4 === 3) === (place === ALPHA)) {
            bits[i] = next;
            next = (next + step) >>> 0;
        }
    }
    return new Float32Array(bits.buffer);
}

function paint(call, height, floats, output) {
    if (call === BAND) {
        done(display.spoonwing_display_paint(state, 0, 8, tables, none, floats, output));
    } else if (call === FRAME) {
        done(display.spoonwing_display_frame(state, tables, none, floats, output));
    } else {
        const line = output.length / height;
        for (let y = 0; y < height; y++) {
            const part = output.subarray(line * y, line * (y + 1));
            done(display.spoonwing_display_line(state, y, tables, none, floats, part));
        }
    }
}

function doRequest([call, place, first, step, count]) {
    const aPixel = place === ALPHA ? 1 : 3;
    const pixels = Math.ceil(count / aPixel);
    must(count > 0 && pixels <= WIDTH * HEIGHT);
    const width = Math.min(pixels, WIDTH);
    const height = Math.ceil(pixels / width);
    show(width, height);
    // A band lies over what is there: black for alphas, for channels what an opaque pixel hides.
    const output = new Uint8Array(4 * width * height);
    if (place !== ALPHA) output.forEach((_, i) => (output[i] = i * 7 + 1));
    paint(call, height, floatsOf(place, first, step, width * height), output);
    // Every channel of a white pixel over black has its alpha.
    const told = Buffer.alloc(count);
    for (let i = 0; i < count; i++) told[i] = output[Math.floor(i / aPixel) * 4 + (i % aPixel)];
    tell(told);
}

for (let request; (request = readNumbers(5)); ) doRequest(request);
