// Where the members of the structs in firmware/board.h stand, by C's rules: each at the next multiple of its own alignment.

const PLAIN = { uint8_t: 1, int8_t: 1, uint16_t: 2, int16_t: 2, uint32_t: 4, int32_t: 4, uint64_t: 8, int64_t: 8 };

// The structs and the union of a header by name, each with its size, its alignment and its members: { at, size, signed, type, count }.
export function layoutOf(header) {
    const types = new Map();
    for (const [name, size] of Object.entries(PLAIN)) {
        types.set(name, { size, align: size, signed: !name.startsWith('u'), members: new Map() });
    }
    const bare = header.replace(/\/\*[^]*?\*\//g, '');
    for (const [, kind, body, name] of bare.matchAll(/typedef (struct|union) \w+ \{([^}]*)\} (\w+);/g)) {
        types.set(name, placed(types, kind === 'union', body));
    }
    return types;
}

function placed(types, isUnion, body) {
    const members = new Map();
    let size = 0, align = 1, next = 0;
    for (const { name, type, count } of declared(body)) {
        const of = types.get(type);
        const at = isUnion ? 0 : roundUp(next, of.align);
        members.set(name, { at, size: of.size * count, signed: of.signed === true, type, count });
        next = at + of.size * count;
        size = Math.max(size, next);
        align = Math.max(align, of.align);
    }
    return { size: roundUp(size, align), align, members };
}

// The members that a body declares, in order.
function declared(body) {
    return body.split(';').filter(line => line.trim() !== '').flatMap(line => {
        const [, type, names] = line.trim().match(/^(\w+)\s+([^]*)$/);
        return names.split(',').map(one => {
            const [, name, count] = one.trim().match(/^(\w+)(?:\[(\d+)\])?$/);
            return { name, type, count: count === undefined ? 1 : Number(count) };
        });
    });
}

function roundUp(n, to) {
    return Math.ceil(n / to) * to;
}

// A member of a type by its path, as `straight.first.x` or `loops.at[0]`.
export function memberAt(types, type, path) {
    let found = { at: 0, size: types.get(type).size, signed: false, type, count: 1 };
    for (const part of path.match(/\w+|\[\d+\]/g)) {
        const index = part.startsWith('[') ? Number(part.slice(1, -1)) : null;
        const size = found.size / found.count;
        if (index !== null) found = { ...found, at: found.at + index * size, size, count: 1 };
        else found = within(found, types.get(found.type).members.get(part), path);
    }
    return found;
}

function within(outer, member, path) {
    if (!member) throw new Error(`firmware/board.h has no ${path}`);
    return { ...member, at: outer.at + member.at };
}

// Of each byte of a type whether a member has it, so that it is no padding.
export function usedBytes(types, type) {
    const { size, members } = types.get(type);
    const used = new Uint8Array(size);
    if (members.size === 0) return used.fill(1);
    for (const member of members.values()) {
        const one = usedBytes(types, member.type);
        for (let i = 0; i < member.count; i++) used.set(one, member.at + i * one.length);
    }
    return used;
}

// The numbers that the header gives a name: by #define, and in its enums.
export function constantsOf(header) {
    const constants = new Map();
    const bare = header.replace(/\/\*[^]*?\*\//g, '');
    for (const [, name, number] of bare.matchAll(/#define (BOARD_\w+) (\d+)$/gm)) constants.set(name, Number(number));
    for (const [, name, number] of bare.matchAll(/\b(BOARD_\w+) = (\d+)/g)) constants.set(name, Number(number));
    return constants;
}
