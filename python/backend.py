"""Makes the wheel, for pip (PEP 517) and for tools/dev/release.sh: no setuptools, no network, and the same bytes each time.

    python3 backend.py FOLDER        writes the wheel there, and prints its name
"""
import base64
import hashlib
import os
import sys
import zipfile

HERE = os.path.dirname(os.path.abspath(__file__))
NAME, TAGS = "cache_tier", ("manylinux2014_x86_64", "manylinux_2_17_x86_64")  # the first for pip before 20.3


def version():
    with open(f"{HERE}/pyproject.toml", encoding="utf-8") as file:
        return next(line.split('"')[1] for line in file if line.startswith("version = "))


def build_wheel(folder, config_settings=None, metadata_directory=None):
    about, files = f"{NAME}-{version()}.dist-info", {}
    for name in sorted(os.listdir(f"{HERE}/src/{NAME}")):
        if os.path.isfile(f"{HERE}/src/{NAME}/{name}"):
            with open(f"{HERE}/src/{NAME}/{name}", "rb") as file:
                files[f"{NAME}/{name}"] = file.read()
    if f"{NAME}/libcache_tier.so" not in files:
        sys.exit(f"backend: there is no libcache_tier.so in {HERE}/src/{NAME}: it is a release's")
    said = f"Metadata-Version: 2.1\nName: cache-tier\nVersion: {version()}\nSummary: An HTTP cache tier whose decisions are proved\n"
    files[f"{about}/METADATA"] = (said + "License: Apache-2.0\nRequires-Python: >=3.8\n").encode()
    tags = "".join(f"Tag: py3-none-{it}\n" for it in TAGS)
    files[f"{about}/WHEEL"] = f"Wheel-Version: 1.0\nGenerator: cache-tier\nRoot-Is-Purelib: false\n{tags}".encode()
    rows = []
    for name, content in files.items():
        digest = base64.urlsafe_b64encode(hashlib.sha256(content).digest()).rstrip(b"=").decode()
        rows.append(f"{name},sha256={digest},{len(content)}\n")
    files[f"{about}/RECORD"] = ("".join(rows) + f"{about}/RECORD,,\n").encode()
    made = f"{NAME}-{version()}-py3-none-{'.'.join(TAGS)}.whl"
    with zipfile.ZipFile(f"{folder}/{made}", "w", zipfile.ZIP_STORED) as out:  # xz of the release sees the same library twice
        for name, content in files.items():
            entry = zipfile.ZipInfo(name, (1980, 1, 1, 0, 0, 0))
            entry.external_attr = (0o755 if ".so" in name else 0o644) << 16
            entry.create_system = 3
            out.writestr(entry, content)
    return made


def get_requires_for_build_wheel(config_settings=None):
    return []


def build_sdist(folder, config_settings=None):
    raise SystemExit("backend: a release has the library in it, and no sdist")


if __name__ == "__main__":
    print(build_wheel(sys.argv[1]))
