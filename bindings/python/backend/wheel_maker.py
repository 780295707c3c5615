"""Makes the wheel that pip installs, with Python's standard library alone: neither a network nor a package is needed.

The package is plain Python, for any machine. Where libcorbelrush.so lies in its folder, that goes along, and the wheel is
for this machine.
"""
import base64
import hashlib
import os
import re
import sysconfig
import zipfile

with open('pyproject.toml') as project:
    NAME, VERSION = re.search(r'^name = "(.*)"\nversion = "(.*)"$', project.read(), re.MULTILINE).groups()
INFO = '%s-%s.dist-info' % (NAME, VERSION)
METADATA = 'Metadata-Version: 2.1\nName: %s\nVersion: %s\nRequires-Python: >=3.8\n' % (NAME, VERSION)
LIBRARY = 'libcorbelrush.so'


def _packaged():
    """The files of the package, as names and contents."""
    for name in sorted(os.listdir(NAME)):
        if name.endswith('.py') or name in ('py.typed', LIBRARY):
            with open(os.path.join(NAME, name), 'rb') as file:
                yield '%s/%s' % (NAME, name), file.read()


def _tag():
    if not os.path.exists(os.path.join(NAME, LIBRARY)):
        return 'py3-none-any'
    return 'py3-none-' + sysconfig.get_platform().replace('-', '_').replace('.', '_')


def _recorded(files):
    """The line of RECORD for each file."""
    for name, content in files:
        digest = base64.urlsafe_b64encode(hashlib.sha256(content).digest()).rstrip(b'=').decode()
        yield '%s,sha256=%s,%d\n' % (name, digest, len(content))
    yield INFO + '/RECORD,,\n'


def build_wheel(wheel_directory, config_settings=None, metadata_directory=None):
    """Writes the wheel and answers its name (PEP 517)."""
    tag = _tag()
    pure = 'true' if tag.endswith('any') else 'false'
    wheel = 'Wheel-Version: 1.0\nGenerator: wheel_maker\nRoot-Is-Purelib: %s\nTag: %s\n' % (pure, tag)
    files = [*_packaged(), (INFO + '/METADATA', METADATA.encode()), (INFO + '/WHEEL', wheel.encode())]
    files.append((INFO + '/RECORD', ''.join(_recorded(files)).encode()))
    name = '%s-%s-%s.whl' % (NAME, VERSION, tag)
    with zipfile.ZipFile(os.path.join(wheel_directory, name), 'w', zipfile.ZIP_DEFLATED) as archive:
        for path, content in files:
            archive.writestr(path, content)
    return name
