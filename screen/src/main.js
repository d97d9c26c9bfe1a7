// The page begins: the modules of WebAssembly out of the file, the board, and everything around it.
import { App } from './app.js';
import { Board } from './board.js';
import { showCard } from './card.js';
import { Classroom } from './classroom.js';
import { complain, connect } from './desk.js';
import { byId } from './dom.js';
import { Sheet } from './sheet.js';
import { showSheet } from './sheetview.js';

function unpacked(text) {
    return WebAssembly.compile(Uint8Array.from(atob(text), letter => letter.charCodeAt(0)));
}

// Which board this is: an examiner can ask for it.
function insideWords({ kit, boardSum, sheetSum }) {
    return `Inside: the board with the SHA-256 sum ${boardSum} and the sheet with ${sheetSum}, proved and made with ${kit}.`;
}

// `data` has the kit, the two modules in base64 with their sums, the exercises and the card: screen/build puts them in.
export async function beginPage(data) {
    try {
        const [boardModule, sheetModule] = await Promise.all([unpacked(data.board), unpacked(data.sheet)]);
        const app = await App.make(boardModule, data.exercises);
        connect(app);
        showCard(byId('panel-card'), data.card);
        byId('inside').textContent = insideWords(data);
        showSheet(new Sheet(sheetModule, await Board.make(boardModule)));
        new Classroom(app, boardModule);
        app.program.take('drill-row');
        document.documentElement.dataset.ready = String(Math.round(performance.now()));
    } catch (error) {
        complain('The board could not be set up in this browser: ' + error.message);
        throw error;
    }
}
