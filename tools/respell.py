#!/usr/bin/env python3
"""Brings the names that the repository's own antt texts declare to Rattle's spelling.

Functions, lemmas, record fields, constructors and local names become plain snake_case: `signalNo` is `signal_no`, `length-at-least` is
`length_at_least`. A name that begins with a capital stays, but for a dash in it, which becomes `_`. What is not declared here stays: the names of
the kit's libraries, of Rust's items, of modules and files, and those that Rattle generates for the proofs of functions.

A specs file or a file of lemmas is respelled whole. In the proof of a function (a folder below `proofs/`) only what it imports from such a file
changes, and the fields of records declared in one. In a `.rt` file only `ghost use` items and clauses change; in an edit of `must-fail/` the texts
that it replaces and puts in; in README.md and docs/ the code spans that are such a name whole.

It runs once, at the top of the repository:   python3 tools/respell.py [--map FILE]
It prints what it did, and `look:` before what a reader has to judge. With --map it writes the mapping: old name, new name, file.
"""
import collections
import pathlib
import re
import sys

RESERVED = set("""record ruleset data open abbrev unfold unfoldable opaque unfolding let in where use mod pub rw simp search omega grind cc elim
absurd subst as do syntax infixl infixr infix mutual if then else ground assumption hlevel entry exit now old new result requires ensures
module at forall Type""".split())

# Where the plain spelling would meet another name: (file, old name) -> new name. A name declared in the file takes it along to those that import it.
SPECIAL = {
    # two top-level names, one a lemma about the other
    ('crates/agreement/proofs/Agreeing.antt', 'shown_by'): 'shown_by_lem',
    ('crates/agreement/proofs/InWords.antt', 'signal-word'): 'signal_word_lem',
    ('crates/agreement/proofs/InWords.antt', 'state-ok'): 'state_ok_lem',
    ('crates/agreement/proofs/Theorem.antt', 'next-state'): 'next_state_lem',
    ('crates/answers/proofs/Asking.antt', 'about-bytes'): 'about_bytes_lem',
    ('crates/answers/proofs/Asking.antt', 'one-word'): 'one_word_lem',
    ('crates/berry/proofs/Samples.antt', 'no-fixpoint'): 'no_fixpoint_lem',
    ('crates/berry/proofs/Samples.antt', 'two-fixpoints'): 'two_fixpoints_lem',
    ('crates/bits/proofs/NoBits.antt', 'no_bits'): 'no_bits_lem',
    ('crates/builder/proofs/Format.antt', 'no-lists'): 'no_lists_lem',
    ('crates/files/proofs/Sound.antt', 'kind_fits'): 'kind_fits_lem',
    ('crates/files/proofs/Sound.antt', 'operands-fit'): 'operands_fit_lem',
    ('crates/files/proofs/Whole.antt', 'read-cells'): 'read_cells_lem',
    ('crates/giving/proofs/EachGate.antt', 'is-gate'): 'is_gate_lem',
    ('crates/interpreter/proofs/Following.antt', 'event-ok'): 'event_ok_lem',
    ('crates/krankovel/proofs/Answering.antt', 'net-verdict'): 'net_verdict_lem',
    ('crates/netlist_entries/proofs/NetRuns.antt', 'net-verdict'): 'net_verdict_lem',
    ('crates/netlists/proofs/Laying.antt', 'file-written'): 'file_written_lem',
    ('crates/sets/proofs/Climbs.antt', 'first-fault'): 'first_fault_lem',
    ('crates/sheet/proofs/Answers.antt', 'root-read'): 'root_read_lem',
    ('crates/sheet/proofs/OnlyBytes.antt', 'sheet-bytes'): 'sheet_bytes_lem',
    ('crates/sheet/proofs/ProperBytes.antt', 'binary-bytes'): 'binary_bytes_lem',
    ('crates/sheet/proofs/ProperBytes.antt', 'head_bytes'): 'head_bytes_lem',
    ('crates/sheet/proofs/ProperBytes.antt', 'leaf-bytes'): 'leaf_bytes_lem',
    ('crates/sheet/proofs/ProperBytes.antt', 'stmt-bytes'): 'stmt_bytes_lem',
    ('crates/sheet/proofs/ProperBytes.antt', 'unary-bytes'): 'unary_bytes_lem',
    ('crates/sheet/proofs/Walk.antt', 'head-of'): 'head_of_lem',
    ('crates/sheet/proofs/Walk.antt', 'row-of'): 'row_of_lem',
    # a lemma and a name of the kit
    ('crates/cuts/proofs/Words.antt', 'bit-and'): 'bit_and_lem',
    ('crates/cuts/proofs/Words.antt', 'bit-or'): 'bit_or_lem',
    # a constructor or a field and a function
    ('crates/berry/specs/Behaviour.antt', 'present-else'): 'present_else_rule',
    ('crates/krankovel/specs/Promise.antt', 'read-file'): 'read_file_entry',
    ('crates/order/proofs/ByTest.antt', 'inOrder'): 'in_order_at',
    ('crates/paper/proofs/Paper.antt', 'mayRun'): 'may_run_in',
    # local names
    ('crates/berry/proofs/Reactions.antt', 'then-rests'): "then_rests'",
    ('crates/bits/proofs/Making.antt', 'words-of'): "words_of'",
    ('crates/run/proofs/Going.antt', 'sets-in'): "sets_in'",
}

TOKEN = re.compile(r'\n|[^\S\n]+|"(?:[^"\\\n]|\\.)*"|[(){}.;,@"]|[^\s(){}.;,@"]+')
WORD = re.compile(r"[A-Za-z][A-Za-z0-9_'₀-₉-]*")
SIGNATURE = re.compile(r"^( *)((?:(?:pub|unfoldable|unfold|abbrev|opaque|private) )*)([^\s(){}.;,@\":=]+(?: [^\s(){}.;,@\":=]+)*) :(?: |$)")
USE = re.compile(r"^(?:pub )?use ([\w.+'◌-]+?)(?:\.\{(.*)\}| as (\S+))?$")
GHOST_USE = re.compile(r"^(?:pub )?ghost use ([\w.+'◌-]+?)(?:\.\{(.*)\}| as (\S+))?;$")


def snake(name):
    """The name in plain snake_case; of one that begins with a capital, only the dashes change."""
    if not WORD.fullmatch(name):
        return name
    if name[0].isupper():
        return name.replace('-', '_')
    name = re.sub(r"([a-z0-9'₀-₉])([A-Z])", r'\1_\2', name)
    return name.replace('-', '_').lower()


class Token:
    """A word of a text: where it stands, what it is, and whether it follows a dot (`head` is then the word before the dot)."""

    def __init__(self, text, start):
        self.text, self.start = text, start
        self.dotted, self.head, self.comment, self.use = False, None, False, False


def tokens(text):
    """The tokens of a text without white space; a comment is one token."""
    found, at = [], 0
    while at < len(text):
        match = TOKEN.match(text, at)
        word = match.group(0)
        if word.startswith('--') and (at == 0 or text[at - 1].isspace()):
            end = text.find('\n', at)
            end = len(text) if end < 0 else end
            token = Token(text[at:end], at)
            token.comment = True
            found.append(token)
            at = end
            continue
        if not word.isspace():
            found.append(Token(word, at))
        at = match.end()
    mark_dots(text, found)
    return found


def mark_dots(text, found):
    for before, dot, token in zip([None] + found, found, found[1:]):
        joined = dot.text == '.' and token.start == dot.start + 1
        if joined and dot.start > 0 and not text[dot.start - 1].isspace():
            token.dotted = True
            token.head = before.text if before else None


class Import:
    def __init__(self, module, source):
        self.module, self.source = module, source


def read_imports(text, pattern):
    """What the `use` items bind: names and module aliases."""
    names, aliases = {}, {}
    for line in text.split('\n'):
        match = pattern.match(line)
        if not match:
            continue
        module, listed, alias = match.groups()
        if alias:
            aliases[alias] = module
        elif listed is None:
            aliases[module.split('.')[-1]] = module
        for item in filter(None, (part.strip() for part in (listed or '').split(','))):
            source, _, name = item.partition(' as ')
            names[name or source] = Import(module, source)
    return names, aliases


class Lemmas:
    """A specs file or a file of lemmas: what it declares, binds and imports."""

    def __init__(self, path):
        self.path, self.text = path, path.read_text()
        self.imports, self.aliases = read_imports(self.text, USE)
        self.exported, self.fields, self.functions = set(), set(), set()
        self.read_declarations()
        self.bound = self.functions | self.exported | set(self.aliases)
        self.read_binders()
        self.names = {}

    def read_declarations(self):
        blocks = []
        for line in self.text.split('\n'):
            words = line.split()
            if not words or words[0].startswith('--'):
                continue
            indent = len(line) - len(line.lstrip())
            while blocks and blocks[-1][0] >= indent:
                blocks.pop()
            if words[0] == 'pub' and words[1] in ('record', 'data', 'module') or words[0] in ('record', 'data', 'module'):
                kind, name = words[words[0] == 'pub':][:2]
                if kind != 'module':
                    self.exported.add(name.rstrip(':'))
                blocks.append((indent, kind))
                continue
            if words == ['where']:
                blocks.append((indent, 'local'))
                continue
            match = SIGNATURE.match(line)
            if match:
                self.declare(match.group(3).split(), [kind for _, kind in blocks])

    def declare(self, names, kinds):
        if names[0] in ('let', 'in', 'λ', '→'):
            return
        self.functions.update(names)
        if 'local' not in kinds:
            self.exported.update(names)
            if kinds[-1:] == ['record']:
                self.fields.update(names)

    def read_binders(self):
        """Names of telescopes, of let and λ, and those of a clause's left side."""
        words = [token for token in tokens(self.text) if not token.comment]
        for place, token in enumerate(words):
            if token.text in ('(', '{', 'let'):
                self.bound.update(names_before(words, place + 1, ':'))
                if token.text == 'let':
                    self.bound.update(names_before(words, place + 1, '='))
            elif token.text == 'λ':
                self.bound.update(names_before(words, place + 1, '.'))
        for line in self.text.split('\n'):
            side = left_side(line)
            if side and side[0] in self.functions:
                self.bound.update(side)


def left_side(line):
    """The words of a line before the first `=` outside of brackets; none where it has none."""
    side, depth = [], 0
    for token in tokens(line):
        depth += {'(': 1, '{': 1, ')': -1, '}': -1}.get(token.text, 0)
        if token.text == '=' and depth == 0:
            return side
        if not token.dotted and not token.comment:
            side.append(token.text)
    return []


def names_before(words, place, mark):
    """The names from a place on, where the mark follows them."""
    names = []
    while place < len(words) and words[place].text not in '(){};,@':
        if words[place].text == mark:
            return names
        names.append(words[place].text)
        place += 1
    return []


class Repository:
    def __init__(self):
        crates = pathlib.Path('crates')
        antt = sorted(crates.glob('*/specs/*.antt')) + sorted(crates.glob('*/proofs/*.antt'))
        self.lemmas = {module_of(path): Lemmas(path) for path in antt}
        self.proofs = sorted(path for path in crates.glob('*/proofs/**/*.antt') if len(path.parts) > 4)
        self.rust = sorted(crates.glob('*/src/**/*.rt'))
        self.edits = sorted(crates.glob('*/must-fail/*.edit'))
        self.pages = [pathlib.Path('README.md')] + sorted(pathlib.Path('docs').rglob('*.md'))
        self.fields = {name for file in self.lemmas.values() for name in file.fields}
        code = '\n'.join(path.read_text() for path in self.rust)
        self.steps = {name.replace('_', '-') for name in re.findall(r'\bfn (\w+)', code)}
        self.looks, self.rows = [], []
        self.renames = {}

    def look(self, path, what):
        self.looks.append(f'look: {path}: {what}')

    def exported(self, module, name):
        """The new name of what a module declares; None where the module is none of the repository's own."""
        file = self.lemmas.get(module)
        if not file:
            return None
        if name in file.imports and name not in file.exported:
            return self.imported(file.imports, name)
        return SPECIAL.get((str(file.path), name), snake(name)) if name in file.exported else name

    def imported(self, imports, name):
        """The new name of what a file imports under a name."""
        entry = imports[name]
        if name == entry.source:
            return self.exported(entry.module, name) or name
        return name

    def plain(self, file, name):
        """The new name in a file of lemmas of a word that follows no dot."""
        special = SPECIAL.get((str(file.path), name))
        if special:
            return special
        if name in file.imports and file.imports[name].source == name:
            return self.imported(file.imports, name)
        return snake(name) if name in file.bound or name in file.imports else name

    def after_dot(self, aliases, token):
        """The new name of a word that follows a dot: a name of the module before it, or a field."""
        module = aliases.get(token.head)
        if module:
            return self.exported(module, token.text) or token.text
        return snake(token.text) if token.text in self.fields else token.text


def module_of(path):
    return '.'.join(('Rattle',) + path.with_suffix('').parts[1:])


def is_odd(name):
    return snake(name) != name


class Change:
    """The words of one text that get another spelling: (start, old, new)."""

    def __init__(self):
        self.places = []

    def put(self, start, old, new):
        if old != new:
            self.places.append((start, old, new))

    def apply(self, text, low=0, high=None):
        """The text from low to high with its words respelled."""
        high = len(text) if high is None else high
        parts, at = [], low
        for start, old, new in sorted(self.places):
            if low <= start and start + len(old) <= high:
                assert text[start:start + len(old)] == old and start >= at, (start, old, new)
                parts += [text[at:start], new]
                at = start + len(old)
        return ''.join(parts + [text[at:high]])


def put_uses(repository, text, pattern, change, local):
    """Respells the lists of `use` items; local says the new name of what such an item renames, or of an alias."""
    at, spans = 0, []
    for line in text.split('\n'):
        match = pattern.match(line)
        if match:
            spans.append((at, at + len(line)))
            module, listed, alias = match.groups()
            if alias:
                change.put(at + match.start(3), alias, local(alias))
            if listed:
                for item in re.finditer(r'([^\s,]+)(?: as ([^\s,]+))?', listed):
                    start = at + match.start(2) + item.start()
                    source = item.group(1)
                    change.put(start, source, repository.exported(module, source) or source)
                    if item.group(2):
                        change.put(at + match.start(2) + item.start(2), item.group(2), local(item.group(2)))
        at += len(line) + 1
    return spans


def put_comment(repository, path, token, names, change):
    """Respells the names of a comment: `names` is what the file declares or imports. Elsewhere declared names change in backticks alone."""
    quoted = {match.start() + 1 for match in re.finditer(r'`[^`]*`', token.text)}
    for match in WORD.finditer(token.text):
        word = match.group(0)
        elsewhere = repository.declared.get(word, {word})
        if word in names:
            change.put(token.start + match.start(), word, names[word])
        elif elsewhere != {word} and match.start() in quoted and len(elsewhere) == 1:
            change.put(token.start + match.start(), word, next(iter(elsewhere)))
        elif elsewhere != {word} and '-' not in word:
            repository.look(path, f'a comment has {word}, which is declared elsewhere: left')


def respell_lemmas(repository, file):
    change = Change()
    local = lambda name: repository.plain(file, name)
    spans = put_uses(repository, file.text, USE, change, local)
    listed = file.exported | set(file.imports)
    told = {name: repository.plain(file, name) for name in listed}
    words = tokens(file.text)
    labels = record_labels(words)
    for token in words:
        if token.comment:
            put_comment(repository, file.path, token, told, change)
        elif inside(spans, token.start):
            continue
        elif token.dotted:
            new = repository.after_dot(file.aliases, token)
            change.put(token.start, token.text, new)
            if is_odd(new) and not token.head in file.aliases:
                repository.look(file.path, f'{token.text} after a dot is no field of the repository')
        elif token in labels:
            change.put(token.start, token.text, snake(token.text) if token.text in repository.fields else token.text)
        else:
            new = repository.plain(file, token.text)
            change.put(token.start, token.text, new)
            if is_odd(new) and token.text not in file.imports:
                repository.look(file.path, f'{token.text} is bound by nothing that is seen')
    return change


def inside(spans, at):
    return any(low <= at < high for low, high in spans)


def respell_proof(repository, path):
    """The proof of a function: names that it imports from files of lemmas, and the fields of their records."""
    text = path.read_text()
    imports, aliases = read_imports(text, USE)
    change = Change()
    local = lambda name: SPECIAL.get((str(path), name), name)
    spans = put_uses(repository, text, USE, change, local)
    told = {name: SPECIAL.get((str(path), name), repository.imported(imports, name)) for name in imports}
    words = tokens(text)
    labels = record_labels(words)
    for token in words:
        if token.comment:
            put_comment(repository, path, token, told, change)
        elif inside(spans, token.start):
            continue
        elif token.dotted:
            new = repository.after_dot(aliases, token)
            if new != token.text and (token.head in ('c', 'before') or token.text in repository.steps and token.head not in aliases):
                repository.look(path, f'{token.head}.{token.text} is a field and may be a step: left')
                continue
            change.put(token.start, token.text, new)
        elif token in labels:
            change.put(token.start, token.text, snake(token.text) if token.text in repository.fields else token.text)
        else:
            change.put(token.start, token.text, told.get(token.text, SPECIAL.get((str(path), token.text), token.text)))
    return change


def record_labels(words):
    """The tokens that name a field in `record { field = .. }`."""
    labels, open_brackets = set(), []
    for before, token, after in zip([None] + words, words, words[1:] + [None]):
        if token.text in '({':
            open_brackets.append(token.text == '{' and before is not None and before.text == 'record')
        elif token.text in ')}' and open_brackets:
            open_brackets.pop()
        elif open_brackets and open_brackets[-1] and before.text in '{;' and after is not None and after.text == '=':
            labels.add(token)
    return labels


def clause_spans(text):
    """Where the clauses of a Rust text stand, without their braces; comments are skipped."""
    spans = []
    bare = re.sub(r'//[^\n]*', lambda match: ' ' * len(match.group(0)), text)
    for match in re.finditer(r'\b(?:requires|ensures)(?:\s+\w+)?\s*\{', bare):
        depth, at = 1, match.end()
        while at < len(bare) and depth:
            depth += {'{': 1, '}': -1}.get(bare[at], 0)
            at += 1
        spans.append((match.end(), at))
    return spans


def clause_names(repository, text):
    """The new names of what a Rust text has for its clauses, and its module aliases."""
    imports, aliases = read_imports(text, GHOST_USE)
    names = {name: repository.imported(imports, name) if name == entry.source else snake(name) for name, entry in imports.items()}
    return names, aliases


def put_clauses(repository, text, spans, names, aliases, change):
    for low, high in spans:
        for token in tokens(text[low:high]):
            new = repository.after_dot(aliases, token) if token.dotted else names.get(token.text, token.text)
            change.put(low + token.start, token.text, new)


def respell_rust(repository, path):
    text = path.read_text()
    change = Change()
    put_uses(repository, text, GHOST_USE, change, snake)
    names, aliases = clause_names(repository, text)
    spans = clause_spans(text)
    put_clauses(repository, text, spans, names, aliases, change)
    for match in re.finditer(r'//[^\n]*', text):
        for word in WORD.findall(match.group(0)):
            if names.get(word, word) != word or '-' not in word and repository.declared.get(word, {word}) != {word}:
                repository.look(path, f'a comment has {word}, a name that is respelled: left')
    for low, high in spans:
        for token in tokens(text[low:high]):
            if is_odd(token.text) and not token.dotted and token.text not in names:
                repository.look(path, f'{token.text} in a clause is imported by nothing that is seen')
    report_hidden(repository, path, text, spans, names)
    return change


def report_hidden(repository, path, text, spans, names):
    """Parameters, locals and constants of a Rust function that would hide a word of its clauses."""
    bare = re.sub(r'//[^\n]*', lambda match: ' ' * len(match.group(0)), text)
    starts = [match.start() for match in re.finditer(r'\bfn \w+', bare)] + [len(bare)]
    for low, high in zip(starts, starts[1:]):
        own = [span for span in spans if low <= span[0] < high]
        cited = {token.text for span in own for token in tokens(text[slice(*span)]) if not token.dotted}
        code = ''.join(letter if not inside(own, low + at) else ' ' for at, letter in enumerate(bare[low:high]))
        for name in sorted(cited & set(names)):
            if names[name] != name and re.search(rf'(?<![\w.:])(?<!fn ){names[name]}\b(?!\s*\()', code):
                repository.look(path, f'clash at {names[name]}: {code[3:].split("(")[0]} has it in its code and cites {name}')


def joined_projections(text):
    """A projection that stands apart from what it is taken of, ` .field`, as it is written now."""
    text = re.sub(r"\(([\w']+) \.([\w'-]+)\)", r'\1.\2', text)
    text = re.sub(r"\(([\w']+(?: [\w']+)+) \.([\w'-]+)\)", r'(\1).\2', text)
    return re.sub(r"(?<=[\w')]) \.(?=\w)", '.', text)


def respell_edit(repository, path):
    """The texts of an edit, spelt as the file that it is applied to."""
    lines, target = path.read_text().split('\n'), None
    for place, line in enumerate(lines):
        if line.startswith('file: '):
            target = path.parent.parent / line[6:]
        elif line.startswith('old: '):
            old = line[5:]
            lines[place] = 'old: ' + respell_fragment(repository, target, old, old)
        elif line.startswith('new: '):
            lines[place] = 'new: ' + respell_fragment(repository, target, line[5:], old)
    return '\n'.join(lines)


def respell_fragment(repository, target, fragment, old):
    """A text of an edit; `old` is the text that the edit replaces, which says whether it stands in a clause."""
    if target.suffix == '.antt':
        return antt_fragment(repository, target, fragment)
    text = target.read_text()
    names, aliases = clause_names(repository, text)
    at = text.find(old)
    spans = clause_spans(fragment)
    if any(low <= at < high for low, high in clause_spans(text)):
        spans = [(0, len(fragment))]
    change = Change()
    put_uses(repository, fragment, GHOST_USE, change, snake)
    put_clauses(repository, fragment, spans, names, aliases, change)
    return change.apply(fragment)


def antt_fragment(repository, target, fragment):
    """A text of an edit of antt, with the projections and the names of today."""
    file = repository.lemmas.get(module_of(target))
    fragment = joined_projections(fragment)
    change = Change()
    for token in tokens(fragment):
        if token.dotted:
            change.put(token.start, token.text, repository.after_dot(file.aliases, token))
        elif token.text in file.bound | set(file.imports):
            change.put(token.start, token.text, repository.plain(file, token.text))
        elif snake(token.text) in file.bound | set(file.imports):
            change.put(token.start, token.text, snake(token.text))
    return change.apply(fragment)


def declared_names(repository):
    """The mapping of all that files of lemmas declare: old name -> the set of new names."""
    mapping = collections.defaultdict(set)
    for module, file in repository.lemmas.items():
        for name in file.exported:
            mapping[name].add(repository.exported(module, name))
    return mapping


def respell_page(repository, path, mapping):
    """Code spans of a page that are whole names of the mapping."""
    text = path.read_text()

    def span(match):
        new = mapping.get(match.group(1), {match.group(1)})
        if len(new) > 1:
            repository.look(path, f'{match.group(1)} may be any of {sorted(new)}: left')
            return match.group(0)
        return f'`{next(iter(new))}`'

    fenced = re.split(r'(^```.*?^```[^\n]*$)', text, flags=re.M | re.S)
    for place in range(0, len(fenced), 2):
        for match in re.finditer(r'`([^`\n]+)`', fenced[place]):
            for word in WORD.findall(match.group(1)):
                if word != match.group(1) and mapping.get(word, {word}) != {word}:
                    repository.look(path, f'`{match.group(1)}` has {word} in it: left')
        fenced[place] = re.sub(r'`([^`\n]+)`', span, fenced[place])
    return ''.join(fenced)


def report_clashes(repository, path, text, change):
    """Two plain words of one text that end in one spelling."""
    places = {start: new for start, _, new in change.places}
    ends = collections.defaultdict(set)
    for token in tokens(text):
        if token.comment or token.dotted:
            continue
        ends[places.get(token.start, token.text)].add(token.text)
    renamed = {new for _, _, new in change.places}
    for new, olds in sorted(ends.items()):
        if new in renamed and (len(olds) > 1 or new in RESERVED):
            repository.look(path, f'clash at {new}: {sorted(olds)}')


def note(repository, path, change):
    repository.rows += [(old, new, str(path)) for _, old, new in change.places]


def write_map(repository, target):
    pathlib.Path(target).write_text(''.join('\t'.join(row) + '\n' for row in sorted(set(repository.rows))))


def summary(repository, mapping, changed):
    renamed = {name for name, new in mapping.items() if new != {name}}
    local = {row[0] for row in repository.rows} - renamed
    print(f'{len(renamed)} declared names have a new spelling, and {len(local)} names of locals; {changed} files changed')
    kept = sorted(name for name, new in mapping.items() if any(is_odd(word) for word in new))
    print('kept:', ', '.join(kept) or 'none')
    print(f'{len(SPECIAL)} clashes resolved:')
    for (path, old), new in sorted(SPECIAL.items()):
        print(f'  {path}: {old} is {new}')
    for line in sorted(set(repository.looks)):
        print(line)


def main(arguments):
    repository = Repository()
    mapping = repository.declared = declared_names(repository)
    changes = {file.path: (file.text, respell_lemmas(repository, file)) for file in repository.lemmas.values()}
    for path in repository.proofs:
        changes[path] = (path.read_text(), respell_proof(repository, path))
    for path in repository.rust:
        changes[path] = (path.read_text(), respell_rust(repository, path))
    results = {path: respell_edit(repository, path) for path in repository.edits}
    results.update({path: respell_page(repository, path, mapping) for path in repository.pages})
    for path, (text, change) in changes.items():
        note(repository, path, change)
        if path.suffix == '.antt':
            report_clashes(repository, path, text, change)
        results[path] = change.apply(text)
    changed = 0
    for path, text in results.items():
        if path.read_text() != text:
            path.write_text(text)
            changed += 1
    if arguments[:1] == ['--map']:
        write_map(repository, arguments[1])
    summary(repository, mapping, changed)


if __name__ == '__main__':
    main(sys.argv[1:])
