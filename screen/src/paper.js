// The page that is printed for the examiner: the plate, where the table ended, and the stored program.
import { byId, setText } from './dom.js';
import { plateImage } from './plate.js';

export function fillPaper(app) {
    const { session, program, view } = app;
    const { history, board } = session;
    const shown = board.show();
    const stands = board.get('standing') ? 'STOPPED, NOT FINISHED. ' : '';
    setText(byId('paper-title'), program.name);
    byId('paper-plate').src = plateImage(history, history.calls, { ...shown, surface: app.surface() }, 1600, 1000);
    setText(byId('paper-words'), `${stands}${app.plate.words()} Every position is in steps.`);
    const lines = view.program.lines.map((line, place) => `${String(place).padStart(4)}  ${line.slice(0, 1)} ${line.slice(1)}`);
    setText(byId('paper-listing'), lines.join('\n') || 'The store is empty.');
    setText(byId('paper-inside'), byId('inside').textContent);
}
