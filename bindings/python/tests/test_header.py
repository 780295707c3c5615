"""The module beside include/corbelrush.h: every function that it declares is here with the same parameters, and each constant."""
import os
import re
import unittest

import corbelrush
from corbelrush import _library

ROOT = os.path.dirname(os.path.dirname(os.path.dirname(os.path.dirname(os.path.abspath(__file__)))))
TYPES = {'uint8_t': 'u8', 'uint16_t': 'u16', 'uint32_t': 'u32', 'uint64_t': 'u64', 'int32_t': 'i32', 'float': 'f32'}


def header():
    with open(os.path.join(ROOT, 'include', 'corbelrush.h')) as file:
        return re.sub(r'/\*.*?\*/', '', file.read(), flags=re.DOTALL)


def declared():
    """Each function's parameters: pointers as &, * or > with a type, numbers by their type."""
    for name, inside in re.findall(r'\buint32_t\s+corbelrush_(\w+)\(([^)]*)\)', header()):
        given = [re.sub(r'\s+', ' ', parameter.strip()) for parameter in inside.split(',')]
        yield name, list(kinds(given))


def kinds(given):
    for at, parameter in enumerate(given):
        if parameter.startswith('size_t'):
            continue
        lent = at + 1 < len(given) and given[at + 1].startswith('size_t')
        word = parameter.replace('const ', '').split(' ')[0]
        if '*' not in parameter:
            yield TYPES[word]
        elif lent:
            yield '*' if parameter.startswith('const ') else '&'
        else:
            yield '>' + TYPES[word]


def bound(name):
    for parameter in _library.parameters(name):
        yield parameter.kind if parameter.kind in '&*' else (parameter.kind + parameter.type).lstrip(':')


class Header(unittest.TestCase):
    def test_every_declared_function(self):
        found = dict(declared())
        self.assertEqual(set(found), set(_library.TAKES))
        for name, wanted in found.items():
            with self.subTest(function=name):
                self.assertEqual(list(bound(name)), wanted)
                self.assertTrue(callable(getattr(corbelrush, name)))

    def test_declared_is_in_the_library(self):
        self.assertEqual(corbelrush.missing(), [])

    def test_every_constant(self):
        constants = dict(re.findall(r'CORBELRUSH_(\w+) = (\d+)', header()))
        kinds = ((corbelrush.Refusal, ''), (corbelrush.Edge, ''), (corbelrush.Unit, ''), (corbelrush.Operation, 'RECIPE_'))
        ours = {before + name: number for kind, before in kinds for name, number in kind.__members__.items()}
        for name, number in constants.items():
            if name != 'DONE':
                with self.subTest(constant=name):
                    self.assertEqual(ours.get(name), int(number))

    def test_every_word(self):
        """The words that the header has for each number, where it has them."""
        table = re.search(r'words\[\] = \{(.*?)\};', header(), re.DOTALL)
        if table is None:
            self.skipTest('this header has no words')
        says = re.findall(r'"(.*?)"', table.group(1))
        self.assertEqual(says[1:], [corbelrush.Refused(number).words for number in corbelrush.Refusal])

    def test_the_version(self):
        """The version that the header has, where it has one, is the package's."""
        parts = re.findall(r'#define CORBELRUSH_VERSION_(?:MAJOR|MINOR|PATCH) (\d+)', header())
        if not parts:
            self.skipTest('this header has no version')
        with open(os.path.join(ROOT, 'bindings', 'python', 'pyproject.toml')) as file:
            self.assertIn('version = "%s"' % '.'.join(parts), file.read())
