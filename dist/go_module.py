#!/usr/bin/env python3
# SPDX-License-Identifier: Apache-2.0
"""usage: dist/go_module.py PACKAGE TIME FOLDER

Writes the Go module in PACKAGE, of the version that its dcsctp.h has, into FOLDER as a GOPROXY has it (go.dev/ref/mod#goproxy-protocol);
TIME is the commit's, in seconds since 1970. The same files and time give the same bytes.
"""

import json
import os
import re
import sys
import time
import zipfile


def main():
    if len(sys.argv) != 4:
        sys.exit(__doc__)
    package, seconds, folder = sys.argv[1:]
    with open(os.path.join(package, "go.mod"), "rb") as file:
        description = file.read()
    with open(os.path.join(package, "dcsctp.h"), encoding="utf-8") as file:
        version = "v" + re.search(r'^#define DCSCTP_VERSION "(.*)"$', file.read(), re.M)[1]
    module = re.search(rb"^module (\S+)$", description, re.M)[1].decode()
    to = os.path.join(folder, module, "@v")
    os.makedirs(to)
    info = {"Version": version, "Time": time.strftime("%Y-%m-%dT%H:%M:%SZ", time.gmtime(int(seconds)))}
    files = {"list": f"{version}\n".encode(), f"{version}.info": json.dumps(info).encode(), f"{version}.mod": description}
    for name, content in files.items():
        with open(os.path.join(to, name), "wb") as file:
            file.write(content)
    names = sorted(os.path.relpath(os.path.join(at, it), package) for at, _, here in os.walk(package) for it in here)
    with zipfile.ZipFile(os.path.join(to, f"{version}.zip"), "w", zipfile.ZIP_DEFLATED, compresslevel=9) as archive:
        for name in names:
            with open(os.path.join(package, name), "rb") as file:
                # (a ZipInfo has a time of its own: 1980)
                entry = zipfile.ZipInfo(f"{module}@{version}/{name}")
                archive.writestr(entry, file.read(), zipfile.ZIP_DEFLATED, 9)


if __name__ == "__main__":
    main()
