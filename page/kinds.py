#!/usr/bin/env python3
"""The kinds of the parameters of each call of bofrashem.h, for the page: kinds.py HEADER prints a JavaScript object.

A letter a parameter, and the result behind a colon: j a 64-bit number (pointer or size_t), i a number of up to 32
bits, f a float, v nothing.
"""
import re
import sys

KINDS = {'size_t': 'j', 'uint64_t': 'j', 'uint32_t': 'i', 'uint16_t': 'i', 'int16_t': 'i', 'uint8_t': 'i', 'bool': 'i',
         'float': 'f', 'void': 'v'}


def kinds(header):
    text = re.sub(r'/\*.*?\*/', '', header, flags=re.S)
    found = {}
    for result, name, given in re.findall(r'^(void|bool|float|\w+_t) (ynd_\w+)\((.*?)\);', text, re.S | re.M):
        each = [' '.join(p.split()) for p in given.split(',')]
        letters = ''.join('j' if '*' in p or '[' in p else KINDS[p.split()[-2]] for p in each if p != 'void')
        found[name.removeprefix('ynd_')] = f'{letters}:{KINDS[result]}'
    return found


if __name__ == '__main__':
    with open(sys.argv[1], encoding='utf-8') as file:
        print('{' + ', '.join(f"{name}: '{kind}'" for name, kind in kinds(file.read()).items()) + '}')
