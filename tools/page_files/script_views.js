/* What the program says of a script: its picture, its trace and its data sets. */
'use strict';

const MOST_ROWS = 2000;

function showPicture(panel, drawn, name) {
    panel.classList.toggle('stale', drawn.status !== 0);
    if (drawn.status !== 0) {
        if (panel.childElementCount === 0) panel.append(made('p', { className: 'bad' }, 'A script with a fault is not drawn.'));
        return;
    }
    panel.replaceChildren(saveButton('Save', `${name}.svg`, 'image/svg+xml', drawn.out), pictureOf(drawn.out));
}

/* The words of a trace's line that are about what went wrong. */
const isBad = (said) => /\b(?:refused|Dropped\w*|Ignored|late)\b/.test(said);

/* The line numbers of a trace are counted after the line %%. */
function showTrace(panel, run, lines) {
    const head = lines.findIndex((line) => line.replace(/\r$/, '') === '%%') + 1;
    const events = run.out.split('\n').map((line) => /^(\d+) (\S+) (.*)$/.exec(line)).filter(Boolean);
    const rows = events.slice(0, MOST_ROWS).map(([, number, , said]) => {
        const line = head + Number(number);
        const go = made('button', { type: 'button', title: 'Shows this line', onclick: () => goToLine(line) }, String(line));
        return { cells: [go, (lines[line - 1] || '').trim(), made('span', { className: isBad(said) ? 'bad' : '' }, said)] };
    });
    const more = events.length > MOST_ROWS ? [made('p', { className: 'quiet' }, `${events.length - MOST_ROWS} more lines are not shown.`)] : [];
    const ended = run.status === 0 ? [] : [made('pre', { className: 'bad' }, run.err)];
    panel.replaceChildren(saveButton('Save', 'trace.txt', 'text/plain', run.out), tableOf(['line', 'event', 'what it did'], rows), ...more, ...ended);
}

/* A RESPONSE with this dataField, so that `show` names what is in it. */
function responseOf(id, value) {
    const size = value.length / 2, octets = (number, count) => number.toString(16).padStart(2 * count, '0');
    const identities = '00000000000000010001';
    return `0d12${octets(54 + size, 2)}${'00'.repeat(16)}${identities}0000047f${identities}000002000001${octets(2 + size, 2)}${id}${value}`;
}

/* The data sets that a trace ends with: of each the clock or the port, the id, and the octets. */
function dataSetsOf(trace) {
    return trace.split('\n').map((line) => /^data (\S+) ([0-9a-f]{4}) ([0-9a-f]*)$/.exec(line)).filter(Boolean)
        .map(([, owner, id, value]) => ({ owner, id, value, message: responseOf(id, value) }));
}

/* Members of JSON as pairs of a name and a text; a member of an object has the names of both. */
function membersOf(value, name = '') {
    if (Array.isArray(value) || value === null || typeof value !== 'object') return [[name, Array.isArray(value) ? JSON.stringify(value) : String(value)]];
    return Object.entries(value).flatMap(([key, member]) => membersOf(member, name === '' ? key : `${name}.${key}`));
}

/* Shows each data set beside what it was before the events. `shown` and `before` have what `show --json` printed of each. */
function showData(panel, run, sets, shown, before) {
    const reports = run.out.split('\n').filter((line) => line.startsWith('report ')).map((line) => line.split(' '));
    const parts = [made('h2', {}, 'What the managers report')];
    parts.push(reports.length === 0 ? made('p', { className: 'quiet' }, 'No request was answered.') : tableOf(['session', 'request', 'answer'],
        reports.map(([, session, number, ...answer]) => ({ cells: [session, number, answer.join(' ')] }))));
    let owner = '';
    sets.forEach((set, place) => {
        if (set.owner !== owner) parts.push(made('h2', {}, set.owner.includes('.') ? `Port ${set.owner}` : `Clock ${set.owner}`));
        owner = set.owner;
        parts.push(dataSetTable(shown[place], before.get(`${set.owner} ${set.id}`)));
    });
    if (run.status !== 0) parts.push(made('pre', { className: 'bad' }, run.err));
    panel.replaceChildren(...parts);
}

function dataSetTable(now, before) {
    const known = new Map(membersOf(before?.members ?? {}));
    const rows = membersOf(now.members ?? { dataField: now.dataField }).map(([name, text]) => {
        const isChanged = known.has(name) && known.get(name) !== text;
        return { className: isChanged ? 'changed' : '', cells: [name, isChanged ? `${text} (was ${known.get(name)})` : text] };
    });
    return made('details', { open: rows.some((row) => row.className !== '') }, made('summary', { className: 'name' }, now.managementId),
        tableOf([], rows));
}
