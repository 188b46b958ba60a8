#!/usr/bin/env python3
"""Makes the page, one file: join.py MODULE HEADER OUT

The modules of src/ are put one behind the other, each in a function of its own, in the order in which they import
each other; those of src/drawing/ into the function `drawing`, whose text is also the worker's. The WebAssembly module
goes in as gzip and base64. The Content-Security-Policy lets nothing run but these very texts.
"""
import base64
import gzip
import hashlib
import pathlib
import re
import sys

from kinds import kinds

HERE = pathlib.Path(__file__).parent
IMPORT = re.compile(r"^import \{([^}]*)\} from '([^']*)';\n", re.M)
EXPORT = re.compile(r'^export ((?:async )?(?:function\*?|class|const) (\w+))', re.M)
# What src/ imports and no file of src/ is.
MADE = {'kinds', 'drawing'}


def imports(name, text):
    folder = pathlib.PurePosixPath(name).parent
    return [(names, str(folder / path.removeprefix('./')).removesuffix('.mjs')) for names,
        path in IMPORT.findall(text)]


def joined(first, made):
    """The module `first` and all that it needs, each after what it imports."""
    done, out = [], []

    def take(name, above):
        if name in done:
            return
        if name in above:
            raise SystemExit(f'modules import each other: {" ".join(above)} {name}')
        text = made.get(name) or (HERE / 'src' / f'{name}.mjs').read_text(encoding='utf-8')
        needed = imports(name, text)
        for _, other in needed:
            take(other, above + [name])
        out.append(wrapped(name, text, needed))
        done.append(name)

    take(first, [])
    return ''.join(out)


def wrapped(name, text, needed):
    takes = ''.join(f'const {{{names}}} = modules[\'{other}\'];\n' for names, other in needed)
    body = EXPORT.sub(r'\1', IMPORT.sub('', text))
    gives = ', '.join(found[1] for found in EXPORT.findall(text))
    return f"modules['{name}'] = (() => {{\n{takes}{body}return {{ {gives} }};\n}})();\n"


def script(header):
    table = ', '.join(f"{name}: '{kind}'" for name, kind in kinds(header).items())
    # what the page takes of it, and what tests ask
    names = ('serve', 'colours', 'pen', 'picture', 'sheet')
    parts = '{ ' + ', '.join(f"...modules['drawing/{name}']" for name in names) + ' }'
    drawing = f'function drawing() {{\nconst modules = {{}};\n{joined("drawing/serve", {})}return {parts};\n}}\n'
    made = {'kinds': f'export const KINDS = {{ {table} }};\n', 'drawing': f'export {drawing}'}
    return f"'use strict';\nconst modules = {{}};\n{joined('main', made)}"


def sum_of(text):
    return "'sha256-" + base64.b64encode(hashlib.sha256(text.encode()).digest()).decode() + "'"


def page(module, header):
    code = script(header)
    style = (HERE / 'page.css').read_text(encoding='utf-8')
    policy = (f"default-src 'none'; script-src {sum_of(code)} 'wasm-unsafe-eval'; worker-src blob:; "
              f"style-src {sum_of(style)}; base-uri 'none'; form-action 'none'")
    packed = base64.b64encode(gzip.compress(module, 9, mtime=0)).decode()
    text = (HERE / 'page.html').read_text(encoding='utf-8')
    for mark, value in [('@POLICY@', policy), ('@STYLE@', style), ('@MODULE@', packed), ('@SCRIPT@', code)]:
        if text.count(mark) != 1:
            raise SystemExit(f'page.html: {mark} is to stand there once')
        text = text.replace(mark, value)
    return text


if __name__ == '__main__':
    module, header, out = map(pathlib.Path, sys.argv[1:4])
    text = page(module.read_bytes(), header.read_text(encoding='utf-8'))
    out.parent.mkdir(parents=True, exist_ok=True)
    out.write_text(text, encoding='utf-8')
    print(f'{out}: {len(text.encode())} bytes')
