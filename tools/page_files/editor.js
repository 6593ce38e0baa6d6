/* The editor of a script: the numbers of its lines, and the faults that `ptpm check` finds, each at its line. */
'use strict';

const MOST_NUMBERS = 20000;

const isHead = (line, name) => new RegExp(`^\\s*\\[\\[\\s*${name}\\s*\\]\\]`).test(line);

/* The line of a key among those from `begin` up to the next table; the line before them if it is not there. */
function lineOfKey(lines, begin, key) {
    for (let at = begin; at < lines.length && !/^\s*(?:\[|%%)/.test(lines[at]); at++) {
        if (new RegExp(`^\\s*${key}\\s*=`).test(lines[at])) return at + 1;
    }
    return Math.max(begin, 1);
}

/* Where the table with this number of its kind begins, from a line on: the line after its head. */
function lineAfterHead(lines, from, name, number) {
    let left = number;
    for (let at = from; at < lines.length; at++) {
        if (isHead(lines[at], name)) left -= 1;
        if (left === 0) return at + 1;
    }
    return from;
}

/* The line of a script that a fault is about. `check` names a table by its number in the file. */
function lineOfFault(fault, lines) {
    const inLine = /^line (\d+):/.exec(fault);
    if (inLine) return Number(inLine[1]);
    const inFile = /^file: (\w+)/.exec(fault);
    if (inFile) return lineOfKey(lines, 0, inFile[1]);
    const inTable = /^(clock|session|link) (\d+)(?: "[^"]*")?(?:, port table (\d+))?: (\w*)/.exec(fault);
    if (!inTable) return 1;
    const [, table, number, port, key] = inTable;
    const begin = lineAfterHead(lines, 0, table, Number(number));
    return lineOfKey(lines, port ? lineAfterHead(lines, begin, 'clock\\.port', Number(port)) : begin, key);
}

/* Selects a line of the script and shows it. */
function goToLine(number) {
    const script = byId('script'), lines = script.value.split('\n');
    const begin = lines.slice(0, number - 1).reduce((size, line) => size + line.length + 1, 0);
    script.focus();
    script.setSelectionRange(begin, begin + (lines[number - 1] || '').length);
    const height = script.scrollHeight / Math.max(lines.length, 1);
    script.scrollTop = Math.max(0, (number - 1) * height - script.clientHeight / 3);
}

function showNumbers(lines, faulty) {
    const shown = lines.slice(0, MOST_NUMBERS);
    const numberOf = (_, at) => made('span', { className: faulty.has(at + 1) ? 'fault' : '' }, String(at + 1));
    byId('numbers').replaceChildren(...shown.map(numberOf));
    byId('numbers').scrollTop = byId('script').scrollTop;
}

/* Shows what `check` printed. */
function showFaults({ status, out, err }) {
    const lines = byId('script').value.split('\n');
    const faults = out.split('\n').filter((line) => line !== '').map((text) => ({ text, line: lineOfFault(text, lines) }));
    showNumbers(lines, new Set(faults.map((fault) => fault.line)));
    const buttons = faults.map(({ text, line }) => {
        const said = text.startsWith('line ') ? text : `line ${line}, ${text}`;
        return made('button', { type: 'button', onclick: () => goToLine(line) }, said);
    });
    const whole = status === 0 ? [made('p', {}, 'check: no fault')] : err !== '' ? [made('button', { type: 'button' }, err)] : [];
    byId('faults').replaceChildren(...whole, ...buttons);
}

function beginEditor(changed) {
    const script = byId('script');
    script.addEventListener('scroll', () => { byId('numbers').scrollTop = script.scrollTop; });
    script.addEventListener('input', () => {
        showNumbers(script.value.split('\n'), new Set());
        changed();
    });
}
