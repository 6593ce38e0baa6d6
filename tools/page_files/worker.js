/* The worker of the page: it has the module, and carries out calls of the program, one after another, so that the page stays quick. */
'use strict';

let compiled = null;

/* The module of the octets that the page has, which are packed. */
async function unpacked(text) {
    const packed = Uint8Array.from(atob(text), (character) => character.charCodeAt(0));
    const stream = new Blob([packed]).stream().pipeThrough(new DecompressionStream('gzip'));
    return new Response(stream).arrayBuffer();
}

/* Octets that came in pieces, as one text. */
function textOf(pieces) {
    const decoder = new TextDecoder();
    return pieces.map((piece) => decoder.decode(piece, { stream: true })).join('') + decoder.decode();
}

/* A call of the program, whose whole input is here: its status, and what it wrote as texts. */
function called(module, { words, input }) {
    const written = { 1: [], 2: [] };
    let taken = 0;
    const read = (size) => {
        const piece = input.subarray(taken, taken + size);
        taken += piece.length;
        return piece;
    };
    const write = (stream, octets) => written[stream].push(octets);
    const { status, stopped } = callProgram(module, words, { read, write });
    return { status, out: textOf(written[1]), err: textOf(written[2]) + stopped };
}

async function answer({ program, number, calls }) {
    if (program !== undefined) {
        compiled = (async () => WebAssembly.compile(await unpacked(program)))();
        return;
    }
    const began = performance.now();
    const module = await compiled;
    const results = calls.map((call) => called(module, call));
    postMessage({ number, results, milliseconds: performance.now() - began });
}

addEventListener('message', (event) => {
    answer(event.data).catch((problem) => postMessage({ number: event.data.number, problem: String(problem) }));
});
