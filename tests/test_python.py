"""The package of bindings/python over the library for C."""
import os
import shutil
import sys
import unittest
from tests.bindings.installed import SANITIZE, Installed, python_headers, python_package
from tests.support import ROOT, run


def setUpModule():
    Installed.install(unittest.addModuleCleanup)


class InPython(Installed):
    """The package of bindings/python: one build, for each version of Python that is here."""

    @classmethod
    def interpreters(cls):
        """Those that run, debug builds too, each by its path, the one of this test first."""
        names = ['/usr/bin/python3', *('python3.%d%s' % (minor, kind) for minor in range(8, 20) for kind in ('', 'd'))]
        found = [sys.executable] + [path for path in map(shutil.which, names) if path]
        what = 'import sys; print(sys.version, hasattr(sys, "gettotalrefcount"))'
        return {run([python, '-c', what]).stdout: python for python in reversed(found)
                if not run([python, '-c', '']).returncode}.values()

    def passes(self, packages, python=sys.executable, **more):
        """Runs the tests of the package on what was built."""
        env = {**os.environ, 'PYTHONPATH': packages, **more}
        code = 'import sys, unittest; sys.path.append(%r); unittest.main("test_patricia", argv=["", "-q"])'
        self.succeeds([python, '-B', '-c', code % os.path.join(ROOT, 'bindings', 'python')], env=env, cwd=self.room)

    def test_its_tests(self):
        packages = python_package(self)
        for python in self.interpreters():
            with self.subTest(python=python):
                self.passes(packages, python)

    def test_its_tests_under_sanitizers(self):
        libraries = [run(['gcc', '-print-file-name=lib%s.so' % name]).stdout.decode().strip()
                     for name in ('asan', 'ubsan')] if shutil.which('gcc') else ['']
        if not all(map(os.path.isabs, libraries)):
            self.skipTest('no sanitizers are installed')
        self.passes(python_package(self, *SANITIZE), LD_PRELOAD=' '.join(libraries), PYTHONMALLOC='malloc',
                    ASAN_OPTIONS='detect_leaks=0:allocator_may_return_null=1')

    def test_a_build_with_the_headers_of_python_3_8(self):
        """These define PyMODINIT_FUNC as the type alone, and the build hides what is not said to be visible."""
        packages = python_package(self, '-DPyMODINIT_FUNC=PyObject*')
        self.succeeds([sys.executable, '-B', '-c', 'import patricia'], env={**os.environ, 'PYTHONPATH': packages},
                      cwd=self.room)

    def test_types(self):
        of_mypy = lambda python: not run([python, '-c', 'import mypy']).returncode
        python = next(filter(of_mypy, self.interpreters()), None)
        if not python:
            self.skipTest('mypy is not installed')
        stub = os.path.join(ROOT, 'bindings', 'python', 'patricia', '__init__.pyi')
        self.succeeds([python, '-m', 'mypy', '--strict', '--cache-dir', self.path('mypy'), stub], cwd=self.room)

    def test_cluster(self):
        """The example over dask.distributed, with small numbers."""
        of_dask = lambda python: not run([python, '-c', 'import distributed']).returncode
        python = next(filter(of_dask, self.interpreters()), None)
        if not python:
            self.skipTest('distributed is not installed')
        words = ['--routes', '2000', '--keys', '3000', '--words', '3000', '--parts', '3']
        script = os.path.join(ROOT, 'bindings', 'python', 'examples', 'cluster.py')
        self.assertIn(b'\nok: 9000 keys and 9000 words\n', self.succeeds(
            [python, '-B', script, *words], env={**os.environ, 'PYTHONPATH': python_package(self)}, cwd=self.room))

    def test_pip_installs_it(self):
        """In a copy, since pip leaves files beside the package."""
        has = lambda python: shutil.which(python) and not run([python, '-c', 'import setuptools, wheel, pip']).returncode
        python = next(filter(has, ('python3', '/usr/bin/python3')), None)
        if not python or not python_headers(python):
            self.skipTest('pip with setuptools, wheel and the headers of Python is not installed')
        package, packages = self.path('package'), self.path('packages')
        shutil.copytree(os.path.join(ROOT, 'bindings', 'python'), package)
        env = {**os.environ, 'PATRICIA_LIB_DIR': self.path('installed', 'lib')}
        self.succeeds([python, '-m', 'pip', '-q', 'install', '--no-build-isolation', '--no-index', '--no-deps',
                       '--target', packages, package], env=env)
        script = ('import os, patricia as p; here = os.path.dirname(p.__file__); '
                  'assert "packages" in here and p.PatriciaSet([b"a"]).first() == b"a"; '
                  'assert {"py.typed", "__init__.pyi"} <= set(os.listdir(here))')
        self.succeeds([python, '-B', '-c', script], env={**os.environ, 'PYTHONPATH': packages}, cwd=self.room)
