"""What holds of the texts of the repository: examples are code that the tests run, links lead somewhere, pages,
paragraphs and lines are not too long, and charts are drawn from the tables beside them."""
import glob
import os
import re
import sys
from tests import definitions
from tests.support import ROOT, Case, run

MOST_COLUMNS = 100
# Of README and docs together, and of a paragraph, an item of a list or a row of a table. A word has no space in it.
MOST_WORDS_OF_A_PARAGRAPH = 120
LINK = re.compile(r'\[[^]]*\]\(([^)#:]+)(?:#[^)]*)?\)')

def pages(*more):
    """README and the pages of docs, and more, by their paths from the top of the repository, with their texts."""
    found = ['README.md', *sorted(glob.glob('docs/*.md', root_dir=ROOT)), *more]
    texts = {}
    for path in found:
        with open(os.path.join(ROOT, path), encoding='utf-8') as file:
            texts[path] = file.read()
    return texts


def paragraphs(text):
    """The paragraphs of a page, its items and rows among them, without code and comments."""
    parts = re.split(r'\n\s*\n|\n(?=\s*(?:[-*|#>]|\d+\.)\s)', text)
    return [part for part in parts if not part.startswith('    ')]


class Documents(Case):
    """Examples of comments and pages, lengths, links, counts and charts."""

    def test_paragraphs_have_few_words(self):
        long = ['%s: %d words from %.60r on' % (path, len(part.split()), part) for path, text in pages().items()
                for part in paragraphs(text) if len(part.split()) > MOST_WORDS_OF_A_PARAGRAPH]
        self.assertEqual(long, [])

    def test_links_lead_to_files(self):
        lost = ['%s: %s' % (path, link)
                for path, text in pages('CONTRIBUTING.md', 'CHANGELOG.md', 'tests/cases/README.md').items()
                for link in LINK.findall(text)
                if not os.path.exists(os.path.join(ROOT, os.path.dirname(path), link))]
        self.assertEqual(lost, [])

    def test_each_code_of_the_page_of_calls_is_an_example(self):
        text = pages()['docs/CALLS.md']
        before = re.findall(r'^(?! {4})(.*\S.*)\n\n {4}', text, re.M)
        self.assertEqual([line for line in before if not line.startswith('<!-- example: ')], [])
        self.assertEqual(len(before), text.count('<!-- example: '))

    def test_examples_are_code_that_the_tests_run(self):
        ran = run([sys.executable, '-B', os.path.join(ROOT, 'tests', 'examples.py')])
        self.assertEqual(ran.returncode, 0, ran.stdout.decode())

    def test_lines_of_code_and_definitions_have_at_most_100_columns(self):
        long = []
        for part in 'src/**/*.rt', 'specs/**/*.antt':
            for path in glob.glob(os.path.join(ROOT, 'crates', '*', part), recursive=True):
                with open(path, encoding='utf-8') as file:
                    long += ['%s:%d' % (os.path.relpath(path, ROOT), n) for n, line in enumerate(file, 1)
                             if len(line.rstrip('\n')) > MOST_COLUMNS]
        self.assertEqual(long, [])

    def test_promises_counts_the_definitions(self):
        with open(os.path.join(ROOT, 'docs', 'PROMISES.md'), encoding='utf-8') as file:
            said = file.read()
        for piece in definitions.page():
            with self.subTest(piece):
                before, found, said = said.partition(piece)
                self.assertTrue(found, 'docs/PROMISES.md does not say: %s' % piece)

    def test_promises_names_each_definition_of_the_contracts(self):
        with open(os.path.join(ROOT, 'docs', 'PROMISES.md'), encoding='utf-8') as file:
            named = set(re.findall(r'`([^\s`]+)[^`]*`', file.read()))
        self.assertEqual([name for name in definitions.names() if name not in named], [])

    def test_the_contract_on_the_page_of_promises_is_that_of_the_code(self):
        shown = re.findall(r'(?:^ {4}.*\n)+', pages()['docs/PROMISES.md'], re.M)
        with open(os.path.join(ROOT, 'crates', 'patricia_tree', 'src', 'map.rt'), encoding='utf-8') as file:
            code = file.read()
        self.assertEqual([part for part in shown if part not in code], [])
        self.assertEqual(len(shown), 1)

    def test_charts_have_the_ratios_of_the_tables_of_benchmarks(self):
        page = pages()['docs/BENCHMARKS.md']
        drawn = sorted(os.path.basename(path) for path in glob.glob(os.path.join(ROOT, 'docs', '*.svg')))
        self.assertEqual(drawn, sorted(re.findall(r'!\[[^]]*\]\((\w+\.svg)\)', page)))
        table = re.search('<!-- ratios -->\n(.*?)<!-- end ratios -->', page, re.S)[1]
        with open(os.path.join(ROOT, 'docs', 'ratios.svg'), encoding='utf-8') as file:
            shown = re.findall(r'>\s*(\d+\.\d\d)\s*<', file.read())
        self.assertEqual(sorted(shown), sorted(re.findall(r'\d+\.\d\d', table)), 'tests/bench/charts.sh draws them')
