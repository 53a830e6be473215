#!/usr/bin/env python3
"""Asks about the example outputs that the documentation of the AWS command line shows: tests/documented.py PROGRAM [FOLDER].

FOLDER holds the examples (describe-*.rst) as Debian's awscli ships them; without it they are looked for beside the Python
module awscli. Each JSON output of a call whose list a bundle has is made a bundle of its own, and all of them together one
more. PROGRAM traces a packet from the internet in each. Nothing may come of it but a walk, or a refusal of the description by
its name. It prints each file with the first line of the answer.
"""
import collections
import json
import pathlib
import subprocess
import sys
import tempfile

CALLS = {
    'describe-vpcs': 'Vpcs', 'describe-subnets': 'Subnets', 'describe-network-interfaces': 'NetworkInterfaces',
    'describe-route-tables': 'RouteTables', 'describe-prefix-lists': 'PrefixLists', 'describe-network-acls': 'NetworkAcls',
    'describe-security-groups': 'SecurityGroups', 'describe-security-group-rules': 'SecurityGroupRules',
    'describe-internet-gateways': 'InternetGateways', 'describe-nat-gateways': 'NatGateways',
    'describe-vpc-peering-connections': 'VpcPeeringConnections',
    'describe-transit-gateway-vpc-attachments': 'TransitGatewayVpcAttachments',
    'describe-transit-gateway-attachments': 'TransitGatewayAttachments', 'describe-transit-gateways': 'TransitGateways',
    'describe-security-group-vpc-associations': 'SecurityGroupVpcAssociations', 'describe-instances': 'Reservations',
}
WORDS = 'open from internet tcp 198.51.100.7 203.0.113.10 5000 443'.split()
NAMES = {'NotJson', 'WrongShape', 'BadText', 'DuplicateId', 'MissingReference', 'DuplicateAddress', 'DuplicatePublic', 'NoRouteTable',
         'NoAcl', 'TwoInternetGateways', 'TwoTables', 'TwoAcls'}


def folder():
    if len(sys.argv) > 2:
        return pathlib.Path(sys.argv[2])
    import awscli
    return pathlib.Path(awscli.__file__).parent / 'examples' / 'ec2'


def outputs(text):
    """The JSON objects that stand below 'Output'."""
    for part in text.split('Output')[1:]:
        at = part.find('{')
        if at < 0:
            continue
        try:
            yield json.JSONDecoder().raw_decode(part[at:])[0]
        except json.JSONDecodeError as error:
            print(f'      (an output that is no JSON: {error})')


def answer(program, bundle):
    with tempfile.NamedTemporaryFile('w', suffix='.json') as file:
        json.dump(bundle, file)
        file.flush()
        run = subprocess.run([program, 'trace', file.name, *WORDS], capture_output=True, text=True)
    return run.returncode, run.stdout


def is_right(status, text):
    if status in (0, 1):
        return text.startswith('hop 1 internet internet ') and text.splitlines()[-1].split()[0] in ('arrived', 'stopped')
    words = text.split()
    return status == 3 and words[:2] == ['refused', 'description'] and words[2] in NAMES and text.count('\n') == 1


def main():
    program = sys.argv[1]
    whole, passed, failed, names = collections.defaultdict(list), 0, 0, collections.Counter()

    def tries(name, bundle):
        nonlocal passed, failed
        status, text = answer(program, bundle)
        right = is_right(status, text)
        passed, failed = passed + right, failed + (not right)
        names[' '.join(text.split()[2:3]) if status == 3 else 'a walk'] += 1
        print(f"{'ok' if right else 'WRONG'}  {name}: status {status}, {(text.splitlines() or [''])[0]}")

    for call, key in CALLS.items():
        page = folder() / f'{call}.rst'
        if not page.exists():
            continue
        for n, output in enumerate(outputs(page.read_text(errors='replace'))):
            if key in output:
                tries(f'{page.name}, output {n}', output)
                whole[key] += output[key]
    tries('all outputs together', whole)
    print(', '.join(f'{count} {name}' for name, count in names.most_common()))
    print(f'{passed} passed, {failed} failed')
    sys.exit(failed > 0)


if __name__ == '__main__':
    main()
