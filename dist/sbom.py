#!/usr/bin/env python3
# SPDX-License-Identifier: Apache-2.0
"""usage: dist/sbom.py VERSION FOLDER | --help

Prints what the files of a release, below FOLDER, are, and their sums, as a document of SPDX 2.3 in JSON. The static program holds musl too.
"""
import datetime
import hashlib
import json
import os
import re
import subprocess
import sys


def package(key, name, version, license_of_it, owners, **more):
    return {
        'SPDXID': key, 'name': name, 'versionInfo': version, 'downloadLocation': 'NOASSERTION', 'filesAnalyzed': False,
        'licenseConcluded': license_of_it, 'licenseDeclared': license_of_it, 'copyrightText': f'Copyright {owners}', **more,
    }


def main(version, root):
    commit, time = subprocess.check_output(['git', 'log', '-1', '--format=%H %ct'], text=True).split()
    packages, relations = [], []
    for name in sorted(os.path.relpath(os.path.join(folder, it), root) for folder, _, names in os.walk(root) for it in names):
        if name == 'musl-COPYRIGHT':
            continue
        with open(os.path.join(root, name), 'rb') as file:
            digest = hashlib.sha256(file.read()).hexdigest()
        key = 'SPDXRef-' + re.sub(r'[^A-Za-z0-9.-]', '-', name)
        is_static = re.match(r'sctp_dump-.*-linux-', name)
        packages.append(package(
            key, 'davgyuti', version, 'Apache-2.0 AND MIT' if is_static else 'Apache-2.0', '2026 the Davgyuti maintainers',
            packageFileName=name, supplier='Organization: Davgyuti maintainers',
            checksums=[{'algorithm': 'SHA256', 'checksumValue': digest}]))
        relations.append(('SPDXRef-DOCUMENT', 'DESCRIBES', key))
        if is_static:
            # (musl's loader prints its version, and ends with 1)
            said = subprocess.run(['/lib/ld-musl-x86_64.so.1'], stderr=subprocess.PIPE, text=True).stderr
            packages.append(package('SPDXRef-musl', 'musl', re.search('Version (.*)', said)[1], 'MIT', '2005-2020 Rich Felker, et al.'))
            relations.append((key, 'STATIC_LINK', 'SPDXRef-musl'))
    print(json.dumps({
        'spdxVersion': 'SPDX-2.3', 'dataLicense': 'CC0-1.0', 'SPDXID': 'SPDXRef-DOCUMENT', 'name': f'davgyuti-{version}',
        'documentNamespace': f'https://davgyuti.example/spdx/davgyuti-{version}-{commit}',
        'creationInfo': {
            'created': f'{datetime.datetime.fromtimestamp(int(time), datetime.timezone.utc):%Y-%m-%dT%H:%M:%SZ}',
            'creators': ['Organization: Davgyuti maintainers', 'Tool: dist/sbom.py'],
        },
        'packages': packages,
        'relationships': [{'spdxElementId': one, 'relationshipType': kind, 'relatedSpdxElement': other} for one, kind, other in relations],
    }, indent=1))


if sys.argv[1:] == ['--help']:
    print(__doc__)
elif len(sys.argv) != 3:
    sys.exit(__doc__)
else:
    main(*sys.argv[1:])
