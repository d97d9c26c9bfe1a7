// Small helps for what is shown: elements by their id, and new ones.
export function byId(id) {
    return document.getElementById(id);
}

// A new element of a class, with a text or with elements in it.
export function element(tag, name, ...inside) {
    const made = document.createElement(tag);
    if (name) made.className = name;
    made.append(...inside);
    return made;
}

// A text is changed only if it is another, so that a screen reader does not say it twice.
export function setText(where, text) {
    if (where.textContent !== text) where.textContent = text;
}

// A whole number with commas, as people read it.
export function grouped(number) {
    return String(number).replace(/\B(?=(\d{3})+$)/g, ',');
}

// An element scrolls inside its box until it can be seen; the page itself stays.
export function reveal(box, inside) {
    const top = inside.offsetTop - box.offsetTop;
    if (top < box.scrollTop) box.scrollTop = top;
    else if (top + inside.offsetHeight > box.scrollTop + box.clientHeight) box.scrollTop = top + inside.offsetHeight - box.clientHeight;
}
