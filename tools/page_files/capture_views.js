/* What the program says of a capture: its site with the findings, and each message. */
'use strict';

const MOST_MESSAGES = 500;

const NO_CLOCK = 3;

/* The text of `site` has its findings after how many they are, and then what is open. Nothing is wrong only if nothing was lacking. */
function siteSays({ status, out, err }) {
    const [, open] = /^open: (\d+)$/m.exec(out) ?? [], undecided = open === undefined ? '' : `, ${open} open`;
    if (status === 0 && /^findings: none$/m.test(out)) return ['good', `Nothing is wrong${undecided}`];
    if (status === 0) return ['', `Nothing is wrong that this capture can show${undecided}`];
    if (status === NO_CLOCK) return ['bad', 'No clock answered: there is no answer to a GET of the six data sets.'];
    const [, count, more] = /^findings: (\d+)(?:, and (\d+) that follow)?$/m.exec(out) ?? [];
    const following = more === undefined ? '' : `, and ${more} that ${more === '1' ? 'follows' : 'follow'}`;
    if (status === 1 && count !== undefined) return ['bad', `${count} finding${count === '1' ? '' : 's'}${following}`];
    return ['bad', err];
}

function showSite(panel, drawn, text, name) {
    const [className, words] = siteSays(text);
    const lacking = text.out.split('\n').filter((line) => line.startsWith('not judged: '));
    const parts = [made('h2', { className }, words), ...lacking.map((line) => made('p', {}, line))];
    if (drawn.out.includes('</svg>')) {
        parts.unshift(saveButton('Save', `${name}.svg`, 'image/svg+xml', drawn.out));
        parts.push(pictureOf(drawn.out), made('h2', {}, 'As text'), made('pre', {}, text.out));
    }
    panel.replaceChildren(...parts);
}

/* The summary of a message, and its members. */
function messageElement({ columns, ...message }) {
    const [packet, time, from] = columns ?? ['', '', ''];
    const id = message.managementId, port = ({ clockIdentity, portNumber }) => `${clockIdentity}/${portNumber}`;
    const refused = message.managementErrorId;
    const what = made('b', { className: refused ? 'bad' : '' }, refused ? `${id} ${refused}` : id);
    const cells = [packet, time, from || port(message.sourcePortIdentity), message.actionField, what, `#${message.sequenceId}`];
    return made('details', {}, made('summary', {}, ...cells.map((cell) => made('span', {}, cell))), tableOf([], [
        { cells: ['from', port(message.sourcePortIdentity)] }, { cells: ['to', port(message.targetPortIdentity)] },
        { cells: ['domain', String(message.domainNumber)] },
        { cells: ['hops', `${message.boundaryHops} of ${message.startingBoundaryHops}`] },
        ...membersOf(message.members ?? {}).map((cells) => ({ cells })),
        ...(message.dataField ? [{ cells: ['dataField', message.dataField] }] : []),
        ...(message.displayData ? [{ cells: ['displayData', message.displayData] }] : []),
    ]));
}

function showMessages(panel, shown) {
    const lines = shown.out.split('\n').filter((line) => line !== '');
    const parts = [made('h2', {}, lines.length === 1 ? '1 management message' : `${lines.length} management messages`)];
    if (shown.err !== '') parts.push(made('pre', { className: 'bad' }, shown.err));
    const more = made('button', { type: 'button', onclick: () => addSome() });
    panel.replaceChildren(...parts, more);
    let next = 0;
    function addSome() {
        const some = lines.slice(next, next + MOST_MESSAGES);
        next += some.length;
        more.before(...some.map((line) => messageElement(JSON.parse(line))));
        more.hidden = next >= lines.length;
        more.textContent = `Show more: ${lines.length - next} are left`;
    }
    addSome();
}
