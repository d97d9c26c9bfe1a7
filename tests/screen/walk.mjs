// What the proved program `walk` does, by what the page drives its board with: every byte is an item of a program file, and what is printed
// is taken from the session's entries and their history.
import { PULSE, SEND } from '../../screen/src/board.js';
import { Player } from '../../screen/src/player.js';
import { itemsOf } from '../../screen/src/script.js';
import { LIMIT } from '../../screen/src/session.js';

// The text that `walk` prints on these bytes. The session begins anew.
export function walk(session, input) {
    const player = new Player(session);
    session.begin();
    player.add(itemsOf(Array.from(input, byte => `byte ${byte}\n`).join('')));
    while (player.go(LIMIT));
    const printed = ['walk\n'];
    session.entries.forEach((entry, i) => {
        const turns = session.after(i).axes >= 8;
        for (const event of entry.events) tellEvent(printed, session.history, event, turns);
    });
    if (player.endless) printed.push(`L ${LIMIT}\n`);
    const { position, axes } = session.summary();
    printed.push(`E ${(axes >= 8 ? position : position.slice(0, 3)).join(' ')}\n`);
    return printed.join('');
}

function tellEvent(printed, history, event, turns) {
    if (event.refusal) printed.push(`refused ${event.refusal}\n`);
    if (event.reply) printed.push(`R ${event.reply}\n`);
    for (let call = event.from; call < event.to; call++) {
        if (history.refusal[call]) printed.push(`refused ${history.refusal[call]}\n`);
        if (history.answer[call] === PULSE) printed.push(`P ${signsOf(history, call, turns ? 4 : 3)} ${history.value[call]}\n`);
        if (history.answer[call] === SEND) printed.push(`R ${String.fromCharCode(history.value[call])}\n`);
    }
}

// The signs of a pulse, of the first axes.
export function signsOf(history, call, axes) {
    let signs = '';
    for (let i = 0; i < axes; i++) signs += signText(history.signs[4 * call + i]);
    return signs;
}

export function signText(sign) {
    return sign < 0 ? '-' : sign > 0 ? '+' : '.';
}
