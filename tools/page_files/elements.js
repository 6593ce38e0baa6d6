/* The page's elements, made and found. */
'use strict';

const byId = (id) => document.getElementById(id);

/* An element with these properties and children; a child may be a text. */
function made(name, properties = {}, ...children) {
    const element = Object.assign(document.createElement(name), properties);
    element.append(...children);
    return element;
}

/* A table of rows, each a list of texts or elements whose first is its head; a row may have a class. */
function tableOf(heads, rows) {
    const table = made('table');
    if (heads.length > 0) table.append(made('thead', {}, made('tr', {}, ...heads.map((head) => made('th', { scope: 'col' }, head)))));
    const body = made('tbody');
    for (const { cells: [first, ...others], className = '' } of rows) {
        body.append(made('tr', { className }, made('th', { scope: 'row' }, first), ...others.map((cell) => made('td', {}, cell))));
    }
    table.append(body);
    return table;
}

/* A button that keeps a text as a file. */
function saveButton(label, name, type, text) {
    return made('button', {
        type: 'button',
        onclick() {
            const link = made('a', { href: URL.createObjectURL(new Blob([text], { type })), download: name });
            link.click();
            setTimeout(() => URL.revokeObjectURL(link.href), 1000);
        },
    }, label);
}

/* A picture that the program drew. It is read as a picture: the page runs no script that is not its own. */
function pictureOf(text) {
    const root = new DOMParser().parseFromString(text, 'image/svg+xml').documentElement;
    return root.nodeName === 'svg' ? document.importNode(root, true) : made('pre', {}, text);
}
