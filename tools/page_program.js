/* node page_program.js MODULE WORDS..: the program of docs/try.html as a command, for tools/try_page. It has the words, the standard input
   and both outputs of this process. The program reads when it asks for input, and not before; what it writes is written at once. */
'use strict';
const fs = require('fs');
const path = require('path');
const vm = require('vm');

const NOT_STARTED = 127, PAUSE_MILLISECONDS = 5;
const pause = new Int32Array(new SharedArrayBuffer(4));

vm.runInThisContext(fs.readFileSync(path.join(__dirname, 'page_files/program.js'), 'utf8'));

/* Does what a stream may not be ready for: another process may have made it one that does not wait. */
function whenReady(act) {
    for (;;) {
        try {
            return act();
        } catch (problem) {
            if (problem.code !== 'EAGAIN') throw problem;
            Atomics.wait(pause, 0, 0, PAUSE_MILLISECONDS);
        }
    }
}

function read(size) {
    const room = Buffer.alloc(size);
    return room.subarray(0, whenReady(() => fs.readSync(0, room)));
}

function write(stream, octets) {
    for (let at = 0; at < octets.length;) at += whenReady(() => fs.writeSync(stream, octets, at));
}

const [file, ...words] = process.argv.slice(2);
const { status, stopped } = callProgram(new WebAssembly.Module(fs.readFileSync(file)), words, { read, write });
if (stopped) write(2, Buffer.from(`${stopped}\n`));
process.exitCode = status ?? NOT_STARTED;
