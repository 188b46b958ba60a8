#!/usr/bin/env python3
"""The Rust's answers (crates/vectors/stdin), replayed by the module inside each page: vectors.py PAGE.."""
import base64
import pathlib
import sys

from browser import Browser

HERE = pathlib.Path(__file__).resolve().parent
VECTORS = HERE.parents[1] / 'crates/vectors/stdin'


def main():
    given = base64.b64encode(VECTORS.read_bytes()).decode()
    for page in sys.argv[1:]:
        with Browser(page) as b:
            got = b.js((HERE / 'vectors.js').read_text(encoding='utf-8'), given)
        assert not got['wrong'], f'{page}: {got}'
        assert got['agreed'] == got['all'] > 900, got
        said = f"{got['agreed']} of {got['all']} vectors agree, library {got['version']}"
        print(f'vectors.py: {pathlib.Path(page).name}: {said}')


if __name__ == '__main__':
    main()
