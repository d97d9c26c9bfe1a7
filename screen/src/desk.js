// Buttons, boxes and tabs: what each of them does.
import { byId } from './dom.js';
import { fillPaper } from './paper.js';

export function connect(app) {
    connectButtons(app);
    connectForms(app);
    connectTime(app);
    connectPlate(app);
    connectTabs();
}

function onClick(id, action) {
    byId(id).addEventListener('click', action);
}

// A sentence about something that could not be done; an empty one takes it away.
export function complain(sentence) {
    byId('trouble').textContent = sentence;
    byId('trouble').hidden = sentence === '';
}

function connectButtons(app) {
    onClick('send-all', () => sendLines(app, Infinity));
    onClick('send-line', () => sendLines(app, 1));
    onClick('clock', () => app.clockOnce());
    onClick('run', () => app.toggleRun());
    for (const word of ['stop', 'start', 'break', 'reset']) onClick(word, () => complain(app.act(word)));
    onClick('clear', () => app.switchOn());
    onClick('save', () => saveFile(app));
    onClick('print', () => {
        fillPaper(app);
        window.print();
    });
    window.addEventListener('beforeprint', () => fillPaper(app)); // the browser's own command
}

// So many lines of the program; none if a word of it is wrong.
function sendLines(app, most) {
    app.program.settle();
    const fault = app.program.fault();
    complain(fault);
    if (fault) return;
    const items = app.program.takeItems(most);
    if (most === 1 && app.paused) for (const item of items) app.send(item);
    else app.play(items, null, app.program.items[app.program.next]);
}

function connectForms(app) {
    byId('typing').addEventListener('submit', event => {
        event.preventDefault();
        complain(byId('typed').value === '' ? 'Type a line first, as @0P.' : app.act(byId('typed').value));
        byId('typed').value = '';
    });
    byId('answering').addEventListener('submit', event => {
        event.preventDefault();
        const { value } = byId('character');
        complain(/^[\x20-\x7E]$/.test(value) ? app.act('key ' + value) : 'Type one character, as Y.');
        byId('character').value = '';
    });
    byId('porting').addEventListener('submit', event => {
        event.preventDefault();
        complain(app.act('ports ' + [0, 1, 2, 3].map(i => byId('port' + i).value).join(' ')));
    });
}

function connectTime(app) {
    byId('time').addEventListener('input', () => {
        const call = Number(byId('time').value);
        app.lookAt(call < app.session.history.calls ? call : null);
    });
    onClick('to-now', () => app.lookAt(null));
    onClick('from-here', () => app.goOnFromHere());
}

function connectPlate(app) {
    onClick('zoom-in', () => app.plate.zoom(1.5));
    onClick('zoom-out', () => app.plate.zoom(1 / 1.5));
    onClick('zoom-fit', () => app.plate.fit());
    byId('surface').addEventListener('input', () => app.refresh());
}

// Tabs as the arrow keys expect them.
function connectTabs() {
    const tabs = [...document.querySelectorAll('[role=tab]')];
    const choose = chosen => {
        for (const tab of tabs) {
            tab.setAttribute('aria-selected', String(tab === chosen));
            tab.tabIndex = tab === chosen ? 0 : -1;
            byId(tab.getAttribute('aria-controls')).hidden = tab !== chosen;
        }
        byId('log-part').hidden = chosen.id === 'tab-card' || chosen.id === 'tab-sheet';
        document.querySelector('main').classList.toggle('card', chosen.id === 'tab-card');
    };
    tabs.forEach((tab, i) => {
        tab.addEventListener('click', () => choose(tab));
        tab.addEventListener('keydown', event => {
            const step = { ArrowRight: 1, ArrowLeft: -1 }[event.key];
            if (!step) return;
            const other = tabs[(i + step + tabs.length) % tabs.length];
            choose(other);
            other.focus();
        });
    });
}

// All that was done, as a program file.
function saveFile(app) {
    const link = document.createElement('a');
    link.href = URL.createObjectURL(new Blob([app.session.file()], { type: 'text/plain' }));
    link.download = 'session.txt';
    link.click();
    setTimeout(() => URL.revokeObjectURL(link.href), 1000);
}
