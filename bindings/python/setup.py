"""Builds the extension module against libpatricia.a, which it takes in: from the folder
PATRICIA_LIB_DIR, or from where `make -C bindings/c` builds it, or from where pkg-config says.

One build serves all versions of Python from 3.8 on.
"""
import glob
import os
import subprocess

from setuptools import Extension, setup

HERE = os.path.dirname(os.path.abspath(__file__))
BUILT = os.path.join(os.path.dirname(HERE), 'c', 'out')


def installed(variable):
    """What pkg-config says, or None."""
    try:
        words = ['pkg-config', '--variable=' + variable, 'patricia']
        said = subprocess.run(words, stdout=subprocess.PIPE, check=True)
    except (OSError, subprocess.CalledProcessError):
        return None
    return said.stdout.decode().strip() or None


def found(name, *folders):
    """The path of a file in the first folder that has it."""
    for folder in filter(None, folders):
        if os.path.exists(os.path.join(folder, name)):
            return os.path.join(folder, name)
    raise SystemExit('there is no %s: build the library by `make -C bindings/c`' % name)


named = os.environ.get('PATRICIA_LIB_DIR')
beside = named and os.path.join(named, os.pardir, 'include')
archive = found('libpatricia.a', named, BUILT, installed('libdir'))
header = found('patricia.h', beside, os.path.dirname(BUILT), installed('includedir'))
sources = glob.glob(os.path.join(HERE, 'src', '*.c'))

setup(
    packages=['patricia'],
    package_data={'patricia': ['py.typed', '*.pyi']},
    ext_modules=[Extension(
        'patricia._patricia',
        sorted(os.path.relpath(path, HERE) for path in sources),
        include_dirs=[os.path.dirname(header)],
        extra_objects=[archive],
        extra_compile_args=['-std=c11', '-fvisibility=hidden'],
        extra_link_args=['-Wl,--exclude-libs,ALL'],
        depends=['src/patricia_module.h', header, archive],
        py_limited_api=True)],
    options={'bdist_wheel': {'py_limited_api': 'cp38'}},
)
