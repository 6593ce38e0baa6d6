/* The program ptpm as a function: its words go in, and its exit status comes out. It reads and writes by the functions that it is given.
   Each call has a memory of its own. */
'use strict';

/* What system.c asks of a page, for one call. */
function pageOf(words, { read, write }, octets) {
    const encoder = new TextEncoder(), all = words.map((word) => encoder.encode(word));
    return {
        word_size: (place) => (place >>> 0 < all.length ? all[place >>> 0].length : -1),
        word(place, at, size) {
            octets(at, size).set(all[place >>> 0].subarray(0, size >>> 0));
        },
        read(at, size) {
            const piece = read(size >>> 0);
            octets(at, piece.length).set(piece);
            return piece.length;
        },
        write(stream, at, size) {
            write(stream, octets(at, size).slice());
        },
    };
}

/* Calls the program of a compiled module. `read(size)` answers the next octets of standard input, at most so many, and none at its end. It is
   called if the program reads, and only then. `write(stream, octets)` takes what the program writes on stream 1 or 2. If the program was
   stopped, for example by a stack that is too small, it has no status, and what stopped it. */
function callProgram(module, words, streams) {
    let memory = null, status = null, stopped = '';
    const octets = (at, size) => new Uint8Array(memory.buffer, at >>> 0, size >>> 0);
    try {
        const instance = new WebAssembly.Instance(module, { page: pageOf(['ptpm', ...words], streams, octets) });
        memory = instance.exports.memory;
        status = instance.exports.program_main();
    } catch (problem) {
        stopped = String(problem);
    }
    return { status, stopped };
}
