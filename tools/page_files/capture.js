/* A capture as the management messages in it, and as lines for `ptpm site`: files of pcap and of pcapng, of Ethernet, of Linux's cooked
   frames and of IP. */
'use strict';

const ETHERNET = 1, COOKED = 113, COOKED_2 = 276, NO_LINK = [0, 108], IP_ALONE = [12, 14, 101, 228, 229];
const TYPE_OF = { ip4: 0x0800, ip6: 0x86dd, ptp: 0x88f7, tags: [0x8100, 0x88a8, 0x9100] };
const PTP_PORTS = [319, 320], UDP = 17, MANAGEMENT = 0xd;

/* Sync, Delay_Req, Follow_Up, Announce and management messages: those that `ptpm site` looks at. */
const OF_SITE = [0x0, 0x1, 0x8, 0xb, MANAGEMENT];

/* A file that is no capture, or one that ends too early. */
class NoCapture extends Error {}

function hexadecimal(octets) {
    return Array.from(octets, (octet) => octet.toString(16).padStart(2, '0')).join('');
}

/* The packets of a file: of each its link type, when it came in nanoseconds, and its octets. */
function packetsOf(buffer) {
    const view = new DataView(buffer);
    const magic = view.byteLength >= 24 ? view.getUint32(0) : 0;
    if (magic === 0x0a0d0d0a) return packetsOfBlocks(view);
    const ways = { 0xa1b2c3d4: [false, 1000], 0xd4c3b2a1: [true, 1000], 0xa1b23c4d: [false, 1], 0x4d3cb2a1: [true, 1] };
    if (!(magic in ways)) throw new NoCapture('this is no capture: neither pcap nor pcapng');
    return packetsOfRecords(view, ...ways[magic]);
}

function* packetsOfRecords(view, isLittle, unit) {
    const link = view.getUint32(20, isLittle) & 0xffff;
    for (let at = 24; at + 16 <= view.byteLength;) {
        const size = view.getUint32(at + 8, isLittle);
        const time = BigInt(view.getUint32(at, isLittle)) * 1000000000n + BigInt(view.getUint32(at + 4, isLittle) * unit);
        at += 16;
        yield { link, time, octets: octetsAt(view, at, size) };
        at += size;
    }
}

function octetsAt(view, at, size) {
    return new Uint8Array(view.buffer, view.byteOffset + at, Math.max(0, Math.min(size, view.byteLength - at)));
}

/* pcapng: sections of blocks, each with its length before and after. An interface says what its packets' links and times are. */
function* packetsOfBlocks(view) {
    let isLittle = false, interfaces = [];
    for (let at = 0; at + 12 <= view.byteLength;) {
        const kind = view.getUint32(at, isLittle);
        if (kind === 0x0a0d0d0a) {
            isLittle = view.getUint32(at + 8, true) === 0x1a2b3c4d;
            interfaces = [];
        }
        const size = view.getUint32(at + 4, isLittle);
        if (size < 12) throw new NoCapture('a block of this pcapng file has no length');
        const body = at + 8, end = Math.min(at + size - 4, view.byteLength);
        if (kind === 1) interfaces.push(interfaceAt(view, body, end, isLittle));
        const packet = packetAt(view, kind, body, end, isLittle, interfaces);
        if (packet) yield packet;
        at += size;
    }
}

function interfaceAt(view, body, end, isLittle) {
    let perSecond = 1000000n;
    for (let at = body + 8; at + 4 <= end;) {
        const option = view.getUint16(at, isLittle), size = view.getUint16(at + 2, isLittle);
        if (option === 0) break;
        if (option === 9 && size > 0) {
            const said = view.getUint8(at + 4);
            perSecond = said & 0x80 ? 1n << BigInt(said & 0x7f) : 10n ** BigInt(said);
        }
        at += 4 + 4 * Math.ceil(size / 4);
    }
    return { link: view.getUint16(body, isLittle), perSecond };
}

/* The packet of an enhanced, an old or a simple packet block; the last has no time. */
function packetAt(view, kind, body, end, isLittle, interfaces) {
    if (kind === 3 && end >= body + 4) {
        const size = Math.min(view.getUint32(body, isLittle), end - body - 4);
        return { link: interfaces[0]?.link, time: null, octets: octetsAt(view, body + 4, size) };
    }
    if (kind !== 6 && kind !== 2 || end < body + 20) return null;
    const of = interfaces[kind === 6 ? view.getUint32(body, isLittle) : view.getUint16(body, isLittle)];
    if (of === undefined) return null;
    const ticks = BigInt(view.getUint32(body + 4, isLittle)) << 32n | BigInt(view.getUint32(body + 8, isLittle));
    const size = Math.min(view.getUint32(body + 12, isLittle), end - body - 20);
    return { link: of.link, time: ticks * 1000000000n / of.perSecond, octets: octetsAt(view, body + 20, size) };
}

function numberAt(octets, at) {
    return octets[at] << 8 | octets[at + 1];
}

/* What a frame carries: its EtherType, where that begins, and who sent it. */
function frameOf(link, octets) {
    if (IP_ALONE.includes(link)) return { type: octets[0] >> 4 === 6 ? TYPE_OF.ip6 : TYPE_OF.ip4, at: 0 };
    if (NO_LINK.includes(link)) return { type: octets[4] >> 4 === 6 ? TYPE_OF.ip6 : TYPE_OF.ip4, at: 4 };
    const begins = { [ETHERNET]: [12, 6], [COOKED]: [14, 6], [COOKED_2]: [0, 12] }[link];
    if (begins === undefined) return null;
    let [at] = begins, type = numberAt(octets, at);
    const from = hexadecimal(octets.subarray(begins[1], begins[1] + 6)).replace(/..(?!$)/g, '$&:');
    at = link === COOKED_2 ? 20 : at + 2;
    while (TYPE_OF.tags.includes(type)) {
        type = numberAt(octets, at + 2);
        at += 4;
    }
    return { type, at, from };
}

/* The datagram of UDP in an IPv4 packet, and who sent it; null for what is no UDP, and for a fragment. */
function datagramOf4(octets, at) {
    if (octets[at + 9] !== UDP || (numberAt(octets, at + 6) & 0x3fff) !== 0) return null;
    return { at: at + 4 * (octets[at] & 15), from: Array.from(octets.subarray(at + 12, at + 16)).join('.') };
}

function datagramOf6(octets, at) {
    const extensions = [0, 43, 60];
    let next = octets[at + 6], begin = at + 40;
    while (extensions.includes(next) && begin < octets.length) {
        next = octets[begin];
        begin += 8 * (octets[begin + 1] + 1);
    }
    return next === UDP ? { at: begin, from: shortened(octets.subarray(at + 8, at + 24)) } : null;
}

/* An IPv6 address, with :: for the longest run of zeros. */
function shortened(octets) {
    const words = Array.from({ length: 8 }, (_, place) => numberAt(octets, 2 * place).toString(16));
    let begin = 8, longest = 1;
    for (let at = 0; at < 8; at++) {
        let size = 0;
        while (words[at + size] === '0') size++;
        if (size > longest) [begin, longest] = [at, size];
    }
    return begin === 8 ? words.join(':') : `${words.slice(0, begin).join(':')}::${words.slice(begin + longest).join(':')}`;
}

/* The message of PTP in a packet, and who sent it; null if it has none. */
function messageOf({ link, octets }) {
    const frame = frameOf(link, octets);
    if (frame === null) return null;
    if (frame.type === TYPE_OF.ptp) return { octets: octets.subarray(frame.at), from: frame.from };
    if (frame.type !== TYPE_OF.ip4 && frame.type !== TYPE_OF.ip6) return null;
    const datagram = frame.type === TYPE_OF.ip4 ? datagramOf4(octets, frame.at) : datagramOf6(octets, frame.at);
    if (datagram === null) return null;
    const { at, from } = datagram;
    if (!PTP_PORTS.includes(numberAt(octets, at)) && !PTP_PORTS.includes(numberAt(octets, at + 2))) return null;
    return { octets: octets.subarray(at + 8, at + numberAt(octets, at + 4)), from };
}

/* Seconds with microseconds, after the first packet. */
function secondsBetween(first, time) {
    if (first === null || time === null) return '';
    const micro = (time - first) / 1000n, sign = micro < 0n ? '-' : '', amount = micro < 0n ? -micro : micro;
    return `${sign}${amount / 1000000n}.${String(amount % 1000000n).padStart(6, '0')}`;
}

/* A message as a line for `ptpm site`, with when it came and who sent it. */
function lineOf(time, from, hex) {
    const at = time === null ? '' : `at=${time / 1000000000n}.${String(time % 1000000000n).padStart(9, '0')} `;
    return `${at}${from ? `from=${from} ` : ''}${hex}`;
}

/* The management messages of a capture, in its order, the lines for `ptpm site`, and how many packets and messages of PTP there are. */
function readCapture(buffer) {
    const messages = [], lines = [];
    let packets = 0, ptp = 0, first = null;
    for (const packet of packetsOf(buffer)) {
        packets += 1;
        if (first === null) first = packet.time;
        const message = messageOf(packet);
        if (message === null || message.octets.length === 0) continue;
        ptp += 1;
        const kind = message.octets[0] & 15;
        if (!OF_SITE.includes(kind)) continue;
        const hex = hexadecimal(message.octets);
        lines.push(lineOf(packet.time, message.from, hex));
        if (kind !== MANAGEMENT) continue;
        messages.push({ packet: packets, time: secondsBetween(first, packet.time), from: message.from || '', hex });
    }
    return { packets, ptp, messages, lines };
}

/* A text that has datagrams in hexadecimal, a line each, as `ptpm-manage collect` prints them; the words before one are columns. Notes
   begin with #. */
function readLines(text) {
    const messages = [], lines = [];
    text.split('\n').forEach((line, place) => {
        const words = line.trim().split(/[\t ]+/), hex = words[words.length - 1];
        const isDatagram = /^(?:[0-9a-fA-F]{2})+$/.test(hex);
        if (isDatagram || line.startsWith('#')) lines.push(line.trim());
        if (isDatagram) messages.push({ packet: place + 1, time: '', from: words.slice(0, -1).join(' '), hex });
    });
    return { packets: messages.length, ptp: messages.length, messages, lines };
}
