"""Where the library is found: by CORBELRUSH_SO, then beside the package, then by the loader; and not at all."""
import os
import shutil
import subprocess
import sys
import tempfile
import unittest

import corbelrush

PACKAGE = os.path.dirname(os.path.abspath(corbelrush.__file__))
LIBRARY = 'libcorbelrush.so'
CALL = 'import corbelrush; print(corbelrush.spread([0.25, 0.5, 0.25]), corbelrush.library()._name)'


class Found(unittest.TestCase):
    def setUp(self):
        self.folder = tempfile.TemporaryDirectory()
        self.package = os.path.join(self.folder.name, 'here', 'corbelrush')
        shutil.copytree(PACKAGE, self.package, ignore=shutil.ignore_patterns('__pycache__', LIBRARY))
        self.elsewhere = os.path.join(self.folder.name, 'elsewhere')
        os.mkdir(self.elsewhere)

    def tearDown(self):
        self.folder.cleanup()

    def put(self, folder):
        return shutil.copy(corbelrush.library()._name, os.path.join(folder, LIBRARY))

    def run_with(self, **variables):
        """What a process with this package and these variables writes, or its last line of complaint."""
        kept = {name: value for name, value in os.environ.items() if name not in ('CORBELRUSH_SO', 'LD_LIBRARY_PATH')}
        surroundings = dict(kept, PYTHONPATH=os.path.dirname(self.package), PYTHONDONTWRITEBYTECODE='1', **variables)
        ran = subprocess.run([sys.executable, '-c', CALL], env=surroundings, cwd=self.folder.name, capture_output=True, text=True)
        return ran.stdout.strip() or ran.stderr.strip().splitlines()[-1]

    def test_named(self):
        named = self.put(self.elsewhere)
        self.put(self.package)
        self.assertEqual(self.run_with(CORBELRUSH_SO=named), '65536 ' + named)

    def test_a_name_that_is_wrong_is_no_other(self):
        self.put(self.package)
        self.assertIn('OSError', self.run_with(CORBELRUSH_SO=os.path.join(self.elsewhere, LIBRARY)))

    def test_beside(self):
        beside = self.put(self.package)
        self.put(self.elsewhere)
        self.assertEqual(self.run_with(LD_LIBRARY_PATH=self.elsewhere), '65536 ' + beside)

    def test_by_the_loader(self):
        self.put(self.elsewhere)
        self.assertEqual(self.run_with(LD_LIBRARY_PATH=self.elsewhere), '65536 ' + LIBRARY)

    def test_nowhere(self):
        self.assertIn('set CORBELRUSH_SO', self.run_with(LD_LIBRARY_PATH=self.elsewhere))
