/* The page: what is chosen, what the worker is asked, and which view is shown. */
'use strict';

const TABS = { picture: 'script', trace: 'script', data: 'script', site: 'capture', messages: 'capture' };
const TYPING_ENDS = 120, PATIENCE = 3000;
const encoder = new TextEncoder();

/* What can be chosen: the name, kind and content of each, and what is said of it. */
const EXAMPLES = EXAMPLES_OF_THE_PAGE;

const shown = { tab: 'picture', capture: null, name: '' };
const asked = { worker: null, number: 0, waiting: new Map(), since: 0 };

/* The worker, which is given the program. It is begun again if it is still busy with what nobody waits for. */
function beginWorker() {
    asked.worker?.terminate();
    asked.waiting.clear();
    const source = byId('worker-source').textContent;
    asked.worker = new Worker(URL.createObjectURL(new Blob([source], { type: 'text/javascript' })));
    asked.worker.onmessage = ({ data }) => {
        const { resolve, reject } = asked.waiting.get(data.number) ?? {};
        asked.waiting.delete(data.number);
        if (data.problem) reject?.(new Error(data.problem));
        else resolve?.(data);
    };
    asked.worker.postMessage({ program: byId('program').textContent });
}

/* Calls of the program, each a list of its words and its standard input. */
function ask(...calls) {
    if (asked.waiting.size > 0 && performance.now() - asked.since > PATIENCE) beginWorker();
    if (asked.waiting.size === 0) asked.since = performance.now();
    const number = ++asked.number;
    return new Promise((resolve, reject) => {
        asked.waiting.set(number, { resolve, reject });
        asked.worker.postMessage({ number, calls: calls.map(([words, input]) => ({ words: words.split(' '), input: encoder.encode(input) })) });
    });
}

function say(text, milliseconds) {
    byId('said').textContent = milliseconds === undefined ? text : `${text}: ${milliseconds.toFixed(0)} ms`;
}

/* Whether something else was asked since; then an answer is not shown. */
let current = 0;

async function showScript() {
    const mine = ++current, text = byId('script').value, lines = text.split('\n');
    const network = `${lines.slice(0, lines.findIndex((line) => line.replace(/\r$/, '') === '%%') + 1).join('\n')}\n`;
    const { results: [check, draw, run, fresh], milliseconds } = await ask(['check', text], ['draw', text], ['run', text], ['run', network]);
    if (mine !== current) return;
    showFaults(check);
    showPicture(byId('picture'), draw, shown.name);
    showTrace(byId('trace'), run, lines);
    performance.mark('shown');
    say('ptpm check, draw and run', milliseconds);
    const now = dataSetsOf(run.out), before = dataSetsOf(fresh.out);
    const { results: [show] } = await ask(['show --json --lines', [...now, ...before].map((set) => set.message).join('\n')]);
    if (mine !== current) return;
    const named = show.out.split('\n').filter((line) => line !== '').map((line) => JSON.parse(line));
    const then = new Map(before.map((set, place) => [`${set.owner} ${set.id}`, named[now.length + place]]));
    showData(byId('data'), run, now, named, then);
}

async function showCapture() {
    const mine = ++current, { name, messages, lines, packets, ptp } = shown.capture;
    byId('capture-name').textContent = name;
    byId('capture-counts').textContent = `${packets} packets, ${ptp} of PTP, ${messages.length} management messages`;
    const limits = ['max-offset', 'max-delay'].map((limit) => [limit, byId(limit).value.trim()]).filter(([, value]) => /^\d+$/.test(value))
        .map(([limit, value]) => ` --${limit} ${value}`).join('');
    const facts = byId('right').checked ? ['#ptpm clock=synchronised'] : [], site = [...lines, ...facts].join('\n');
    const columns = messages.map(({ packet, time, from, hex }) => `${packet}\t${time}\t${from}\t${hex}`).join('\n');
    const { results: [draw, text, show], milliseconds } = await ask([`site --draw${limits}`, site], [`site${limits}`, site],
        ['show --json --lines --skip', columns]);
    if (mine !== current) return;
    showSite(byId('site'), draw, text, name.replace(/\.\w+$/, ''));
    showMessages(byId('messages'), show);
    say('ptpm site and show', milliseconds);
}

function refresh() {
    const task = TABS[shown.tab] === 'script' ? showScript() : showCapture();
    task.catch((problem) => say(`The program could not be called: ${problem.message}`));
}

/* Shows a view, with what it is about at its side. */
function select(tab) {
    const isOther = TABS[tab] !== TABS[shown.tab];
    shown.tab = tab;
    for (const name of Object.keys(TABS)) {
        const isSelected = name === tab, button = byId(`tab-${name}`);
        button.setAttribute('aria-selected', String(isSelected));
        button.tabIndex = isSelected ? 0 : -1;
        byId(name).hidden = !isSelected;
    }
    byId('script-source').hidden = TABS[tab] !== 'script';
    byId('capture-source').hidden = TABS[tab] !== 'capture';
    if (!isOther) return;
    byId('example').value = TABS[tab] === 'script' ? shown.name : shown.capture?.name ?? '';
    if (TABS[tab] === 'capture' && shown.capture === null) chooseExample(EXAMPLES.find((example) => example.kind !== 'script').name);
    else refresh();
}

function takeScript(name, text) {
    Object.assign(shown, { name });
    byId('script').value = text;
    byId('picture').replaceChildren();
    showNumbers(text.split('\n'), new Set());
    if (TABS[shown.tab] === 'script') refresh();
    else select('picture');
}

function takeCapture(name, capture) {
    shown.capture = { name, ...capture };
    if (TABS[shown.tab] === 'capture') refresh();
    else select('site');
}

/* What a file is: a capture by its first octets, a script by its line %% or its version, and else lines of datagrams. */
function takeFile(name, buffer) {
    try {
        takeCapture(name, readCapture(buffer));
        return;
    } catch (problem) {
        if (!(problem instanceof NoCapture)) throw problem;
    }
    const text = new TextDecoder().decode(buffer), lines = readLines(text);
    if (/^(?:%%|version\s*=.*|\[\[clock\]\])\r?$/m.test(text)) takeScript(name, text);
    else if (lines.messages.length > 0) takeCapture(name, lines);
    else say(`${name} is no capture (pcap, pcapng), no script, and has no lines of datagrams`);
}

function chooseExample(name) {
    const { kind, content } = EXAMPLES.find((example) => example.name === name);
    byId('example').value = name;
    if (kind === 'script') takeScript(name, content);
    else if (kind === 'lines') takeCapture(name, readLines(content));
    else takeCapture(name, readCapture(Uint8Array.from(atob(content), (character) => character.charCodeAt(0)).buffer));
}

async function openFile(file) {
    if (!file) return;
    byId('example').value = '';
    takeFile(file.name, await file.arrayBuffer());
}

function beginFiles() {
    byId('open').addEventListener('click', () => byId('file').click());
    byId('file').addEventListener('change', () => openFile(byId('file').files[0]));
    addEventListener('dragover', (event) => {
        event.preventDefault();
        document.body.classList.add('dropping');
    });
    addEventListener('dragleave', (event) => {
        if (event.relatedTarget === null) document.body.classList.remove('dropping');
    });
    addEventListener('drop', (event) => {
        event.preventDefault();
        document.body.classList.remove('dropping');
        openFile(event.dataTransfer.files[0]);
    });
}

function beginTabs() {
    const names = Object.keys(TABS);
    for (const name of names) byId(`tab-${name}`).addEventListener('click', () => select(name));
    document.querySelector('[role=tablist]').addEventListener('keydown', (event) => {
        const step = { ArrowRight: 1, ArrowLeft: -1 }[event.key];
        if (!step) return;
        const next = names[(names.indexOf(shown.tab) + step + names.length) % names.length];
        select(next);
        byId(`tab-${next}`).focus();
        event.preventDefault();
    });
}

function begin() {
    beginWorker();
    for (const [label, isScript] of [['Scripts', true], ['Captures and recorded sites', false]]) {
        const of = EXAMPLES.filter((example) => (example.kind === 'script') === isScript);
        byId('example').append(made('optgroup', { label }, ...of.map(({ name, what }) => made('option', { value: name }, what))));
    }
    byId('example').addEventListener('change', () => chooseExample(byId('example').value));
    let typing = 0;
    const later = () => {
        clearTimeout(typing);
        typing = setTimeout(refresh, TYPING_ENDS);
    };
    beginEditor(later);
    for (const limit of ['max-offset', 'max-delay', 'right']) byId(limit).addEventListener('input', later);
    beginFiles();
    beginTabs();
    select('picture');
    const wanted = decodeURIComponent(location.hash.slice(1));
    chooseExample(EXAMPLES.some((example) => example.name === wanted) ? wanted : EXAMPLES[0].name);
}

begin();
