#!/usr/bin/env python3
"""Bundles with what the program says of them: tests/bundles.py PROGRAM [ROWS].

Each row of tests/bundles/rows.json is [NAME, BUNDLE, LINE]. PROGRAM (as out/vpc) is asked to trace a packet in the bundle.
LINE is `accepted`, where any answer may come that refuses no description, or the line of a refusal with status 3. A BUNDLE is a text; or {"bytes": HEX}; or {"template", "item", "count", "between"}: the template with, in place
of its @@, the item so many times; in an item each # is its number from 0, and each ~ the address 10.0.0.0 plus that
number; a "second" item stands as often in place of @2@. Without ROWS the bundles of examples/ are read too. The lines
were written from the format by hand and by an independent model, never by this program. Prints each difference.
"""
import concurrent.futures
import json
import os
import pathlib
import subprocess
import sys
import tempfile

WORDS = 'open from eni-a tcp 10.0.1.10 10.0.1.20 5000 443'.split()
REFUSED = 'refused description '


def dotted(n):
    return '.'.join(str(n >> k & 255) for k in (24, 16, 8, 0))


def bytes_of(bundle):
    if isinstance(bundle, str):
        return bundle.encode('utf-8', 'surrogatepass')
    if 'bytes' in bundle:
        return bytes.fromhex(bundle['bytes'])
    text = bundle['template']
    for place, item in (('@@', bundle['item']), ('@2@', bundle.get('second', ''))):
        if '#' in item or '~' in item:
            items = [item.replace('#', str(k)).replace('~', dotted((10 << 24) + k)) for k in range(bundle['count'])]
        else:
            items = [item] * bundle['count']
        text = text.replace(place, bundle.get('between', ',').join(items))
    return text.encode()


def difference(program, folder, number, row):
    name, bundle, line = row
    path = os.path.join(folder, f'{number}.json')
    with open(path, 'wb') as file:
        file.write(bytes_of(bundle))
    run = subprocess.run([program, 'trace', path, *WORDS], capture_output=True)
    os.remove(path)
    first = run.stdout.split(b'\n', 1)[0].decode('utf-8', 'replace')
    if line == 'accepted':
        well = not first.startswith(REFUSED)
    else:
        well = first == line and run.returncode == 3
    return None if well and not run.stderr else f'{name}: {line!r} expected, {first!r} with status {run.returncode}'


def main(words):
    if not 1 <= len(words) <= 2:
        sys.exit(__doc__)
    here = pathlib.Path(__file__).parent
    with open(words[1] if len(words) == 2 else here / 'bundles' / 'rows.json', encoding='utf-8') as file:
        rows = json.load(file)
    if len(words) == 1:
        rows += [[str(path), path.read_text('utf-8'), 'accepted'] for path in sorted((here.parent / 'examples').glob('*.json'))]
    with tempfile.TemporaryDirectory() as folder, concurrent.futures.ThreadPoolExecutor(4) as pool:
        told = pool.map(lambda k: difference(words[0], folder, k, rows[k]), range(len(rows)))
        wrong = [text for text in told if text]
    print('\n'.join([*wrong, f'{len(rows) - len(wrong)} passed, {len(wrong)} failed']))
    sys.exit(1 if wrong else 0)


if __name__ == '__main__':
    main(sys.argv[1:])
