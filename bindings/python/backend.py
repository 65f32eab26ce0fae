"""Builds the wheel of the Python module, by the rules of PEP 517 and without other packages: `pip install` of this folder.

The folder that REGRESS_FRONT_LIB names has libregress_front.a, as PREFIX/lib after `tools/install PREFIX`. The wheel has
the library inside. It is one for all versions of Python from 3.9 on, with the extension module, or, where there are no
headers of Python, one for 3.8 and later."""

import base64
import hashlib
import os
import pathlib
import re
import subprocess
import sys
import tempfile
import zipfile

HERE = pathlib.Path(__file__).resolve().parent
PLATFORM = 'linux_x86_64'


def _field(name):
    """Returns a field of the table [project] of pyproject.toml."""
    text = (HERE / 'pyproject.toml').read_text(encoding='utf-8')
    return re.search(r'^%s = "(.*)"$' % name, text, re.M)[1]


def _metadata():
    fields = [('Metadata-Version', '2.1'), ('Name', _field('name')), ('Version', _field('version')),
              ('Summary', _field('description')), ('Requires-Python', _field('requires-python')),
              ('License', _field('license')), ('Description-Content-Type', 'text/markdown')]
    page = HERE / 'README.md'
    return ''.join('%s: %s\n' % field for field in fields) + '\n' + page.read_text(encoding='utf-8')


def _library():
    folder = os.environ.get('REGRESS_FRONT_LIB')
    if not folder:
        sys.exit('error: REGRESS_FRONT_LIB is not set: to PREFIX/lib after `tools/install PREFIX`')
    return folder


def get_requires_for_build_wheel(config_settings=None):
    return []


def build_wheel(wheel_directory, config_settings=None, metadata_directory=None):
    name = '%s-%s' % (_field('name').replace('-', '_'), _field('version'))
    with tempfile.TemporaryDirectory() as folder:
        environment = dict(os.environ, PYTHON=sys.executable)
        subprocess.run([str(HERE / 'build'), _library(), folder], check=True, env=environment)
        files = {str(path.relative_to(folder)): path.read_bytes() for path in pathlib.Path(folder).rglob('*.*')}
    is_native = 'regress/_regress.abi3.so' in files
    tag = 'cp39-abi3-' + PLATFORM if is_native else 'py3-none-' + PLATFORM
    info = name + '.dist-info/'
    files[info + 'METADATA'] = _metadata().encode()
    files[info + 'WHEEL'] = ('Wheel-Version: 1.0\nGenerator: regress_front\nRoot-Is-Purelib: false\nTag: %s\n'
                             % tag).encode()
    record = []
    for path, data in sorted(files.items()):
        digest = base64.urlsafe_b64encode(hashlib.sha256(data).digest()).rstrip(b'=').decode()
        record.append('%s,sha256=%s,%d\n' % (path, digest, len(data)))
    record.append(info + 'RECORD,,\n')
    files[info + 'RECORD'] = ''.join(record).encode()
    wheel = '%s-%s.whl' % (name, tag)
    with zipfile.ZipFile(os.path.join(wheel_directory, wheel), 'w', zipfile.ZIP_DEFLATED) as archive:
        for path, data in files.items():
            entry = zipfile.ZipInfo(path)
            entry.external_attr = (0o755 if path.endswith('.so') else 0o644) << 16
            entry.compress_type = zipfile.ZIP_DEFLATED
            archive.writestr(entry, data)
    return wheel


def build_sdist(sdist_directory, config_settings=None):
    raise NotImplementedError('the source archive of a release has this folder')
