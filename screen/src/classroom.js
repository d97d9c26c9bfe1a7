// The lessons as they are shown: to read, a question, choices, and after the run what the board did.
import { Board } from './board.js';
import { byId, element, setText } from './dom.js';
import { LESSONS, lessonPieces, ranRecords } from './lessons.js';
import { Plate } from './plate.js';
import { Player } from './player.js';
import { Session } from './session.js';

export class Classroom {
    constructor(app, module) {
        this.app = app;
        this.module = module;
        this.box = byId('panel-lessons');
        app.whenFresh = () => this.hideBeside();
        this.showAll();
    }

    // The list to choose from.
    showAll() {
        const list = element('ol');
        LESSONS.forEach((lesson, i) => {
            const open = this.button(lesson.title, () => this.open(i));
            open.id = 'lesson-' + lesson.id;
            list.append(element('li', '', open));
        });
        this.box.replaceChildren(element('h2', '', 'Lessons'), element('p', '', 'Each asks a question first. The board answers it.'), list);
    }

    button(text, action) {
        const made = element('button', '', text);
        made.type = 'button';
        made.addEventListener('click', action);
        return made;
    }

    // A lesson on a fresh board: what comes before its question is done at once.
    open(index) {
        const lesson = LESSONS[index];
        this.index = index;
        this.lesson = lesson;
        this.beside = null;
        this.app.switchOn();
        this.items = lesson.items();
        this.choices = lesson.choices.map(choice => this.choiceButton(choice));
        this.answer = element('div', 'answer');
        this.answer.id = 'answer';
        this.answer.setAttribute('aria-live', 'polite');
        this.answer.hidden = true;
        const program = element('pre', 'program', lesson.program.trim());
        const question = element('fieldset', '', element('legend', '', 'What do you think?'), paragraph(lesson.question), ...this.choices);
        const title = element('h2', '', `Lesson ${index + 1}: ${lesson.title}`);
        this.box.replaceChildren(title, paragraph(lesson.text), program, question, this.answer, this.ways());
        if (this.items.before.length) this.app.play(this.items.before);
    }

    choiceButton(choice) {
        const made = this.button(choice.label, () => this.choose(choice));
        made.classList.add('choice');
        made.dataset.value = choice.value;
        return made;
    }

    ways() {
        const row = element('p', 'row', this.button('Again', () => this.open(this.index)), this.button('All lessons', () => this.close()));
        if (this.index + 1 < LESSONS.length) row.append(this.button('Next lesson', () => this.open(this.index + 1)));
        return row;
    }

    close() {
        this.hideBeside();
        this.showAll();
        this.app.refresh();
    }

    hideBeside() {
        byId('second-figure').hidden = true;
        this.app.plateTitle = '';
    }

    // The program runs, and when nothing more is to be done the answer is what came of it.
    async choose(choice) {
        for (const button of this.choices) button.disabled = true;
        const { lesson, items } = this;
        const isBegun = this.isBegun();
        if (!isBegun) this.app.switchOn();
        if (items.beside.length) await this.runBeside();
        this.app.play(isBegun ? items.answering : [...items.before, ...items.answering], isDone => {
            if (isDone) this.showAnswer(lesson, choice);
            else this.showBroken();
        });
    }

    // Whether what comes before the question was done, and nothing else since.
    isBegun() {
        const { entries } = this.app.session;
        const { before } = this.items;
        return entries.length === before.length && before.every((item, i) => entries[i].text === item.text) && !this.app.player.busy;
    }

    // The other program on a second board, all of it at once, with a plate of its own.
    async runBeside() {
        const [board, spare] = await Promise.all([Board.make(this.module), Board.make(this.module)]);
        this.beside = new Session(board, spare);
        const player = new Player(this.beside);
        player.add(this.items.beside);
        while (player.go(1000));
        byId('second-figure').hidden = false;
        this.app.plateTitle = 'As it is written. ';
        const { history } = this.beside;
        const plate = new Plate(byId('second-plate'), history);
        plate.draw(history.calls, { ...board.show(), surface: 0 });
        setText(byId('second-words'), 'As the old board read it. ' + plate.words());
    }

    showAnswer(lesson, choice) {
        const { session } = this.app;
        const measured = lesson.measure(session, this.beside);
        for (const button of this.choices) {
            const isRight = button.dataset.value === String(measured);
            const isWrong = button.dataset.value === String(choice.value) && !isRight;
            button.classList.toggle('right', isRight);
            button.classList.toggle('wrong', isWrong);
            if (isRight || isWrong) button.append(element('span', 'verdict', isRight ? 'what the board did' : 'your answer'));
        }
        const sentences = lesson.explain(choice.value, session, this.beside);
        this.answer.replaceChildren(...sentences.map(paragraph), ...this.ranBoth(), element('p', '', element('strong', '', ...pieces(lesson.short))));
        this.answer.hidden = false;
        this.answer.scrollIntoView({ block: 'nearest' });
    }

    showBroken() {
        this.answer.replaceChildren(element('p', '', 'The lesson was broken off. Again begins it anew.'));
        this.answer.hidden = false;
    }

    // Which records ran, on both boards.
    ranBoth() {
        if (!this.beside) return [];
        const row = (words, session) => element('p', 'ran', words, element('code', '', ranRecords(session).join(' ')));
        return [row('Records as they ran, as written: ', this.app.session), row('As the old board read them: ', this.beside)];
    }
}

function paragraph(text) {
    return element('p', '', ...pieces(text));
}

function pieces(text) {
    return lessonPieces(text).map(piece => (piece.code ? element('code', '', piece.text) : piece.text));
}
