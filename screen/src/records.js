// Where the records of a stored program lead: asked of the board itself. A spare board is put before the record, as a running program is, and
// makes one clock call; where it then stands is where the record leads.
import { DONE, READY, WAIT } from './board.js';

// The lines of a listing, the one of each record at its place.
export function linesOf(listing) {
    return listing.split('\r').slice(0, -2);
}

// What the record at a place does to a run: { kind: 'jump' | 'loop' | 'wait', to, left } or nothing. `left` is how often a loop goes back once
// it has gone back for the first time.
function askRecord(spare, state, place, line) {
    spare.state().set(state);
    spare.set('job', READY);
    spare.set('standing', 0);
    spare.set('axes', spare.get('store axes'));
    spare.set('depth', 0);
    spare.set('place', place);
    const answer = spare.clock();
    if (spare.get('clock refusal') !== 0 || answer !== DONE) return null;
    if (spare.get('job') === WAIT) return { kind: 'wait', to: spare.get('number') };
    if (spare.get('depth') > 0) return { kind: 'loop', to: spare.get('place'), left: spare.loops()[0].left };
    return line.startsWith('3') ? { kind: 'jump', to: spare.get('place') } : null;
}

// The same of every record, by its place. Only records that can lead elsewhere are asked.
export function leadsOf(spare, state, memory, lines) {
    spare.load(state, memory);
    return lines.map((line, place) => (/^[23]/.test(line) ? askRecord(spare, state, place, line) : null));
}

// The program of a board: its lines and where they lead.
export function programOf(board, spare) {
    const { text, refusal } = board.list();
    const lines = refusal ? [] : linesOf(text);
    return { lines, leads: leadsOf(spare, board.state().slice(), board.memory(), lines), readable: !refusal };
}
