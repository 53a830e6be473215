#!/usr/bin/env python3
"""What reading and accepting whole accounts costs: bench/bundles.py PROGRAM [NAME..].

Makes the accounts of bench/accounts.py (all, or those named) one after the other, and prints for each: the answer, the
processor time of `PROGRAM trace` (user and system, least of three runs), its ratio to python3's json.load of the same
file in the same run, its ratio to PROGRAM on the same text as the value of one member that no list has, which is the JSON
reading alone, and the peak memory. Everything runs one after the other."""
import os
import pathlib
import subprocess
import sys
import tempfile

HERE = pathlib.Path(__file__).parent
WORDS = 'open from eni-a tcp 10.0.1.10 10.0.1.20 5000 443'.split()
LOAD = 'import json,sys;json.load(open(sys.argv[1],encoding="utf-8"))'
KINDS = [
    ['account', '1000'], ['account', '10000'], ['account', '40000'], ['account', '100000', '--lean'], ['joined', '10000'], ['delegated', '10000'], ['outside', '20000'], ['fit', '--indent'],
    ['equal-ids', '100000'], ['one-vpc', '50000'], ['one-vpc', '100000'], ['subnets', '15000'], ['subnets', '30000'],
    ['named-by-one', '100000'], ['named-by-rule', '100000'], ['rules', '100000'], ['routes', '100000'], ['long-ids', '100000'],
    ['equal-gateways', '100000'], ['associated', '25000'], ['associated', '50000'],
]


def cost(words):
    """The least processor seconds of three runs, the peak in MiB, and the first line."""
    least, peak, line = None, 0, ''
    for _ in range(3):
        child = subprocess.Popen(words, stdout=subprocess.PIPE)
        line = child.stdout.readline().decode('utf-8', 'replace').strip()
        child.stdout.read()
        _, _, used = os.wait4(child.pid, 0)
        child.returncode = 0
        seconds = used.ru_utime + used.ru_stime
        least = seconds if least is None else min(least, seconds)
        peak = max(peak, used.ru_maxrss / 1024)
    return least, peak, line


def main(words):
    if not words:
        sys.exit(__doc__)
    program, names = words[0], set(words[1:])
    print('account                     MiB   seconds  of json.load  of the JSON alone   peak MiB  answer')
    with tempfile.TemporaryDirectory() as folder:
        for kind in KINDS:
            name = ' '.join(kind)
            if names and kind[0] not in names and name not in names:
                continue
            path, bare = os.path.join(folder, 'a.json'), os.path.join(folder, 'b.json')
            subprocess.run([sys.executable, HERE / 'accounts.py', *kind, '-o', path], check=True, stderr=subprocess.DEVNULL)
            with open(path, 'rb') as file, open(bare, 'wb') as other:
                text = file.read()
                other.write(b'{"read-over":' + text[: (64 << 20) - 20] + b'}')
            whole, peak, line = cost([program, 'trace', path, *WORDS])
            loaded, _, _ = cost([sys.executable, '-c', LOAD, path])
            started, _, _ = cost([sys.executable, '-c', 'import json'])
            alone, _, _ = cost([program, 'trace', bare, *WORDS])
            print(f'{name:26} {len(text) / 2**20:6.1f} {whole:8.3f} {whole / max(loaded - started, 1e-3):12.2f}'
                  f' {whole / max(alone, 1e-3):17.2f} {peak:11.0f}  {line[:60]}', flush=True)


if __name__ == '__main__':
    main(sys.argv[1:])
