"""Names and comments from the Rattle source, for the reader of the C: they change no meaning. What is not found, or does not fit the
MIR, gets a number for a name."""
import pathlib
import re

KEYWORDS = set('''auto break case char const continue default do double else enum extern float for goto if inline int long register
restrict return short signed sizeof static struct switch typedef union unsigned void volatile while bool true false'''.split())


# the library's enums, whose source is not at hand
LIBRARY = {'core::option::Option': ['None', 'Some'], 'core::result::Result': ['Ok', 'Err'], 'core::ops::ControlFlow': ['Continue', 'Break'],
           'core::cmp::Ordering': ['Less', 'Equal', 'Greater']}


def safe(name):
    """A name that C does not use itself."""
    return name + '_' if name in KEYWORDS else name


def split(text):
    """The parts between the commas that stand in no bracket."""
    parts, depth, part = [], 0, ''
    for c in text:
        depth += (c in '([{<') - (c in ')]}>')
        if c == ',' and depth == 0:
            parts.append(part)
            part = ''
        else:
            part += c
    return [p.strip() for p in parts + [part] if p.strip()]


def field_names(text):
    """The names of `a: T, pub b: U`."""
    return [safe(re.sub(r'^pub ', '', part).split(':')[0].strip()) for part in split(text)]


def parameters_at(text, start):
    """The parameters of a function, behind its type parameters, whose list may begin at a place of the text."""
    depth, begin = 0, None
    for i in range(start, len(text)):
        if text[i] == '(' and depth == 0:
            begin = i + 1
        if text[i] in '([{<':
            depth += 1
        elif text[i] in ')]}' or text[i] == '>' and text[i - 1] not in '-=':
            depth -= 1
            if depth == 0 and begin is not None:
                return text[begin:i]
    return ''


def bare_name(pattern):
    """The name that a parameter's pattern gives, as `x` in `&x`, `mut x` or `&'a mut self`; of another pattern none."""
    name = re.sub(r"^&?(?:'\w+ )?(?:mut )?", '', pattern)
    return name if re.fullmatch(r'\w+', name) else ''


class Source:
    def __init__(self, folder):
        self.files = {}
        for path in sorted(pathlib.Path(folder).glob('*/src/**/*.rt')):
            module = path.stem if path.stem not in ('lib', 'main') else ''
            self.files[path.parts[-3], module] = path.read_text()

    def text(self, symbol):
        crate, *middle = symbol.split('::')[:-1] or ['']
        module = next((part for part in middle if part.islower()), '')
        return self.files.get((crate, module), '')

    def block(self, symbol):
        """The text of the impl that a method's name names, as that of `impl T` or of `impl Trait for T`, else the whole file."""
        text, within = self.text(symbol), symbol.split('::')[-2:-1]
        found = [m[3] for m in re.finditer(r'^impl(?:<[^{\n]*?>)? (?:(\w+)[^{\n]* for )?(\w+)[^{\n]*\{\n(.*?)^\}', text, re.M | re.S)
                 if within and within[0].startswith(m[2] + (m[1] or '')) and bool(m[1]) == (within[0] != m[2])]
        return '\n'.join(found) or text

    def head(self, symbol):
        """The comment above a function and the text of its parameters, if there is one such function."""
        name, text = re.escape(symbol.split('::')[-1]), self.block(symbol)
        found = list(re.finditer(r'((?:^ *//[^\n]*\n)*)(?:^ *#\[[^\n]*\n)*^ *(?:pub(?:\([^)]*\))? )?(?:const )?(?:extern "C" )?fn ' +
                                 name + r'(?=[<(])', text, re.M))
        return (found[0][1], parameters_at(text, found[0].end())) if len(found) == 1 else ('', '')

    def signed(self, symbol):
        """The out-parameters of 32 bits that are signed: the MIR does not say so, and the C compiler holds the header against it."""
        return {safe(part.split(':')[0].strip()) for part in split(self.head(symbol)[1]) if part.endswith('&mut i32')}

    def function(self, symbol):
        """The comment above a function, and the names of its parameters."""
        comment, parameters = self.head(symbol)
        words = ' '.join(line.strip().lstrip('/').strip() for line in comment.splitlines())
        return words.replace('*/', '* /'), [bare_name(name) for name in field_names(parameters)]

    def declared(self, symbol, shape):
        """The names of a type's fields, or of its variants with their fields."""
        if symbol in LIBRARY:
            return [(name, self.fields('', types, 1)) for name, types in zip(LIBRARY[symbol], shape[1])]
        name = re.escape(symbol.split('::')[-1])
        found = re.findall(r'^(?:pub )?(?:struct|enum) ' + name + r'(?:<[^{\n]*>)? \{\n(.*?)^\}', self.text(symbol), re.M | re.S)
        inner = re.sub(r'//[^\n]*', '', found[0]) if len(found) == 1 else ''
        return self.fields(inner, shape[1]) if shape[0] == 'fields' else self.variants(inner, shape[1])

    def fields(self, text, types, first=0):
        names = field_names(text)
        return names if len(names) == len(types) else [f'f{first + i}' for i in range(len(types))]

    def variants(self, text, shapes):
        """Pairs (name, names of the fields)."""
        parts = [re.match(r'(\w+)\s*(?:\{(.*)\})?', part, re.S) for part in split(text)]
        if len(parts) != len(shapes) or not all(parts):
            parts = [None] * len(shapes)
        return [(m[1] if m else f'v{i}', self.fields(m[2] or '' if m else '', types, 1)) for i, (m, types) in enumerate(zip(parts, shapes))]
