// The files of the repository and the modules made of it.
import fs from 'node:fs';

export const ROOT = new URL('../../', import.meta.url);

export function readFile(path) {
    return fs.readFileSync(new URL(path, ROOT));
}

export function moduleOf(name) {
    return new WebAssembly.Module(readFile(`target/screen/${name}.wasm`));
}
