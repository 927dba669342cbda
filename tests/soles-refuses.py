#!/usr/bin/env python3
"""tools/soles.py refuses each kind of crate that it must refuse, and passes a right one.

Each case is a made-up crate `made` in a folder of its own: the right one with one thing changed. What is
refused must be refused with the words that tell why.
"""
import contextlib
import importlib.util
import io
import pathlib
import sys
import tempfile

ROOT = pathlib.Path(__file__).resolve().parent.parent

LIB = '''// A line of a comment, with pub fn in_a_line() in it. /* and this begins nothing
/* A block, with
pub fn in_a_block() { /* and a block in it */ }
*/
mod gauge;
ghost use Rattle.std.specs.Prelude.{◌≡◌, ◌<◌};
const OPEN: &[u8] = b"pub fn in_a_text() {";

pub fn twice(n: u8) -> u8
    ensures { result ≡ record { both = n; } }
{
    let open = b'{';
    helper(n)
}

pub(crate) fn helper(n: u8) -> u8
    requires { n < 9 }
    ensures same { result ≡ n }
    ensures low { result < 9 }
{
    n
}

fn own(n: u8) -> u8 { n }

impl Dial {
    pub fn turned(self) -> Dial
        ensures { result ≡ self }
    {
        self
    }
}

#[unsafe(no_mangle)]
pub extern "C" fn shown(line: &[u8]) -> u32
    ensures { result ≡ 0 }
{
    0
}
'''
GAUGE = '''pub fn read(n: u8) -> u8
    ensures { result ≡ n }
{
    n
}
'''
SOLES = '''-- Each public function's contract allows one result.
use mathlib.Core.Path.{refl}
use Rattle.laws.proofs.Sole.{Sole, alike}
use Rattle.made.specs.contracts.twice as twice
use Rattle.made.specs.contracts.Dial.turned as turned
use Rattle.made.specs.contracts.shown as shown
use Rattle.made.specs.contracts.gauge.read as read_gauge

pub twice_sole : Sole twice.ended (λ M 𝓤. twice.clauses)
twice_sole = record { says = _ }

pub turned_sole : Sole turned.ended (λ M 𝓤. turned.clauses)
turned_sole = record { says = _ }

pub shown_sole : Sole shown.ended (λ M 𝓤. shown.clauses)
shown_sole = record { says = _ }

pub read_sole : Sole read_gauge.ended (λ M 𝓤. read_gauge.clauses)
read_sole = record { says = _ }
'''
RIGHT = {
    'crates/made/src/lib.rt': LIB,
    'crates/made/src/gauge.rt': GAUGE,
    'crates/made/proofs/Lib.antt': 'pub mod Soles\n',
    'crates/made/proofs/Soles.antt': SOLES,
    'docs/EXCEPTIONS.md': '# Exceptions\n\nThere is none.\n',
}
SOURCE, INNER, ROOT_FILE, PROOFS, EXCEPTIONS = RIGHT
SAYS = '    ensures { result ≡ n }\n'
LACKS = 'neither a line'


def body(head, clauses=SAYS):
    return f'{head}\n{clauses}{{\n    n\n}}\n'


def added(file, text):
    return file, '', text


# What is tried, the words that must be among those of the refusal ('' where nothing is wrong), and the changes:
# a file, the text to be replaced (none: at its end) and the text in its place.
CASES = [
    ('nothing changed', '', []),
    ('a public function without a line', 'made::more: ' + LACKS, [added(SOURCE, body('pub fn more(n: u8) -> u8'))]),
    ('the same of the crate alone', '', [added(SOURCE, body('pub(crate) fn more(n: u8) -> u8'))]),
    ('the same of the module above', '', [added(SOURCE, body('pub(super) fn more(n: u8) -> u8'))]),
    ('the same in a comment', '', [added(SOURCE, '// ' + body('pub fn more(n: u8) -> u8').replace('\n', '\n// '))]),
    ('the same in a block comment', '', [added(SOURCE, '/* /* */ ' + body('pub fn more(n: u8) -> u8') + '*/')]),
    ('a block comment that ends', 'made::more: ' + LACKS,
     [added(SOURCE, '/* /* */ */ ' + body('pub fn more(n: u8) -> u8'))]),
    ('a name on the next line', 'made::more: ' + LACKS, [added(SOURCE, body('pub\nfn\nmore(n: u8) -> u8'))]),
    ('a constant function', 'made::more: ' + LACKS, [added(SOURCE, body('pub const fn more(n: u8) -> u8'))]),
    ('a module inside the file', 'made::inner::more: ' + LACKS,
     [added(SOURCE, 'mod inner {\n' + body('pub fn more(n: u8) -> u8') + '}\n')]),
    ('a function inside a function', 'made::own2::more: ' + LACKS,
     [added(SOURCE, 'fn own2(n: u8) -> u8 {\n' + body('#[unsafe(no_mangle)] extern fn more(n: u8) -> u8') + '    n\n}\n')]),
    ('a method', 'made::Dial::more: ' + LACKS, [added(SOURCE, 'impl Dial {\n' + body('pub fn more(self) -> u8') + '}\n')]),
    ('extern "C" and not pub', 'made::more: ' + LACKS, [added(SOURCE, body('extern "C" fn more(n: u8) -> u8'))]),
    ('extern alone', 'made::more: ' + LACKS, [added(SOURCE, body('pub extern fn more(n: u8) -> u8'))]),
    ('extern alone and not pub', 'made::more: ' + LACKS, [added(SOURCE, body('extern fn more(n: u8) -> u8'))]),
    ('no_mangle and nothing else', 'made::more: ' + LACKS,
     [added(SOURCE, body('#[unsafe(no_mangle)]\nfn more(n: u8) -> u8'))]),
    ('no_mangle as it was spelled', 'made::more: ' + LACKS, [added(SOURCE, body('#[no_mangle]\nfn more(n: u8) -> u8'))]),
    ('no_mangle and of the crate', 'made::more: ' + LACKS,
     [added(SOURCE, body('#[unsafe(no_mangle)]\npub(crate) fn more(n: u8) -> u8'))]),
    ('another name for C', 'made::more: ' + LACKS,
     [added(SOURCE, body('#[unsafe(export_name = "less")]\nfn more(n: u8) -> u8'))]),
    ('a requires', 'made::gauge::read: a public function must answer',
     [(INNER, SAYS, '    requires { n < 9 }\n' + SAYS)]),
    ('a requires behind the ensures', 'made::gauge::read: a public function must answer',
     [(INNER, SAYS, SAYS + '    requires { n < 9 }\n')]),
    ('a requires with a name', 'made::gauge::read: a public function must answer',
     [(INNER, SAYS, '    requires low { n < 9 }\n' + SAYS)]),
    ('a requires with a star', 'made::gauge::read: a public function must answer',
     [(INNER, SAYS, '    requires* { ⌜ n < 9 ⌝ }\n' + SAYS)]),
    ('a requires of an exported function', 'made::shown: a public function must answer',
     [(SOURCE, '-> u32\n', '-> u32\n    requires { true }\n'), (SOURCE, 'pub extern "C"', 'extern')]),
    ('a requires in a comment', '', [(INNER, SAYS, '    // requires { n < 9 }\n' + SAYS)]),
    ('no ensures', 'and this one has 0', [(INNER, SAYS, '')]),
    ('an ensures in a comment only', 'and this one has 0', [(INNER, SAYS, '    //' + SAYS)]),
    ('two ensures', 'and this one has 2', [(INNER, SAYS, SAYS + SAYS)]),
    ('an ensures with a name', '', [(INNER, SAYS, '    ensures same { result ≡ n }\n')]),
    ('two ensures with names', 'and this one has 2',
     [(INNER, SAYS, '    ensures same { result ≡ n }\n    ensures low { result < 9 }\n')]),
    ('an ensures with a star beside another', 'and this one has 2', [(INNER, SAYS, SAYS + '    ensures* kept { emp }\n')]),
    ('a line of Soles in a comment', 'made::twice: ' + LACKS, [(PROOFS, 'pub twice_sole', '-- pub twice_sole')]),
    ('a line of Soles behind other words', 'made::twice: ' + LACKS, [(PROOFS, 'pub twice_sole', 'x -- pub twice_sole')]),
    ('a line of Soles in a block comment', 'made::shown: ' + LACKS,
     [(PROOFS, 'pub shown_sole', '{- {- -}\npub shown_sole'), (PROOFS, '\npub read_sole', '-}\npub read_sole')]),
    ('an import in a comment', 'made::twice: ' + LACKS,
     [(PROOFS, 'use Rattle.made.specs.contracts.twice', '-- use Rattle.made.specs.contracts.twice')]),
    ('a line about no universe', 'made::twice: ' + LACKS, [(PROOFS, 'λ M 𝓤. twice.clauses', 'λ M. twice.clauses')]),
    ('a line about other clauses', 'made::twice: ' + LACKS, [(PROOFS, 'λ M 𝓤. twice.clauses', 'λ M 𝓤. shown.clauses')]),
    ('a line about another crate', 'made::twice: ' + LACKS, [(PROOFS, 'made.specs.contracts.twice', 'other.specs.contracts.twice')]),
    ('the same name in another module', 'made::dial::read: ' + LACKS,
     [added('crates/made/src/dial.rt', GAUGE)]),
    ('the same name in a module below', 'made::gauge::dial::read: ' + LACKS,
     [added('crates/made/src/gauge/dial.rt', GAUGE)]),
    ('the same name in both, and a line for each', '',
     [added('crates/made/src/dial.rt', GAUGE),
      (PROOFS, '\npub twice', 'use Rattle.made.specs.contracts.dial.read as read_dial\n\npub twice'),
      added(PROOFS, '\npub dial_sole : Sole read_dial.ended (λ M 𝓤. read_dial.clauses)\n')]),
    ('one name for two functions', 'gives one name to two',
     [added('crates/made/src/dial.rt', GAUGE),
      (PROOFS, '\npub twice', 'use Rattle.made.specs.contracts.dial.read as read_gauge\n\npub twice')]),
    ('Soles that nothing checks', 'does not declare Soles', [(ROOT_FILE, 'pub mod Soles', '-- pub mod Soles')]),
    ('another law', 'is not that of crate laws', [(PROOFS, 'Rattle.laws.proofs.Sole', 'Rattle.made.proofs.Sole')]),
    ('a law of its own', 'is not that of crate laws', [added(PROOFS, '\nSole : Type 0\nSole = Unit\n')]),
    ('an exception', '', [(PROOFS, 'pub twice_sole', '-- pub twice_sole'),
                         added(EXCEPTIONS, '- `made::twice`: because it is made up\n')]),
    ('an exception for another path', 'made::gauge::read: ' + LACKS,
     [(PROOFS, 'pub read_sole', '-- pub read_sole'), added(EXCEPTIONS, '- `made::read`: because\n')]),
    ('an exception without a reason', 'made::twice: ' + LACKS,
     [(PROOFS, 'pub twice_sole', '-- pub twice_sole'), added(EXCEPTIONS, '- `made::twice`:\n')]),
    ('an exception that nothing needs', 'names a function that is not there',
     [added(EXCEPTIONS, '- `made::in_a_line`: because a comment names it\n')]),
    ('no public function at all', 'soles: 0 public functions',
     [(SOURCE, LIB, ''), (INNER, GAUGE, ''), (PROOFS, SOLES, 'use Rattle.laws.proofs.Sole.{Sole, alike}\n')]),
]


def made(folder, changes):
    """Writes the made-up repository with its changes."""
    files = dict(RIGHT)
    for file, old, new in changes:
        text = files.get(file, '')
        assert old in text and text.count(old) == 1 or not old, f'{old!r} is not once in {file}'
        files[file] = text.replace(old, new) if old else text + new
    for file, text in files.items():
        path = folder / file
        path.parent.mkdir(parents=True, exist_ok=True)
        path.write_text(text)


def loaded():
    """tools/soles.py as a module."""
    spec = importlib.util.spec_from_file_location('soles', ROOT / 'tools/soles.py')
    soles = importlib.util.module_from_spec(spec)
    spec.loader.exec_module(soles)
    return soles


def judged(soles, folder):
    """The status and the words of tools/soles.py on a folder."""
    sys.argv[1:] = [folder]
    with contextlib.redirect_stdout(io.StringIO()) as said:
        return soles.main(), said.getvalue()


def main():
    soles, wrong, refused = loaded(), 0, 0
    for name, words, changes in CASES:
        with tempfile.TemporaryDirectory() as folder:
            made(pathlib.Path(folder), changes)
            status, said = judged(soles, folder)
        refused += status == 1
        if status != (1 if words else 0) or words not in said:
            wrong += 1
            print(f'soles-refuses: {name}: status {status}: {said}')
    print(f'soles-refuses: {len(CASES)} made-up crates, {refused} refused, {wrong} wrong')
    return 1 if wrong else 0


if __name__ == '__main__':
    sys.exit(main())
