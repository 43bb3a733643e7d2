#!/usr/bin/env python3
"""Lists the definitions that a clause of `run_alone` reaches, `headline` if none is named: along the `use` lines and the words of
crates/*/specs, and through the types of src that these name, with their fields and models. Words are not told from local names,
so a few may be listed too much. With --check it prints what is reached outside of the crates that a reader of `headline` needs."""
import re
import sys
from glob import glob
NEEDED = 'halt words token syntax read coef ring tower poly form print program'.split()
USE = re.compile(r'(?:^|\n)\s*(?:pub |ghost )*use (?:Rattle\.)?([\w.:]+?)(?:(?:\.|::)\{([^}]*)\}| as (\w+))?;?(?=\n|$)')
HEAD = re.compile(r'( *)(?:abbrev )?(?:pub )?(record |data )?([^\W\d][\w-]*)(?: [({].*?[)}])? : ')
TYPE = re.compile(r'\n(?:pub )?(?:struct|enum|impl Model for) (\w+)([ <:][^;]*?\{.*?\n\}|\(.*?;\n)', re.S)
WORD = re.compile(r'(?<![\w.])[^\W\d][\w-]*(?:\.[^\W\d][\w-]*)?')
known = {}  # (module or crate, name): its file, its text, and where the names in it come from

def scope_of(text):
    scope = {}
    for module, names, alias in USE.findall(text):
        scope |= {new or old: (module, old) for old, new in re.findall(r'([\w◌]+)(?: as (\w+))?', names)}
        scope |= {} if names else {alias or re.split('[.:]', module)[-1]: (module, None)}
    return scope

def meant(word, crate, scope):
    first, _, last = word.partition('.')
    module, name = scope.get(first, (crate, first))
    path = module.replace('::', '.').split('.')
    if 'specs' in path and 'declared' not in path:
        return (module, name or last)
    name = ([part for part in path if part[:1].isupper() and part != 'TheVariants'] + [name or last])[0]
    own = (path[0].replace('crate', crate), name)
    return own if own in known or first not in scope else next((key for key in known if key[1] == name and '.' not in key[0]), None)

for file in sorted(glob('crates/*/specs/**/*.antt', recursive=True)):
    text = re.sub('--.*', '', open(file).read())
    module, scope, name, block, most = file[7:-5].replace('/', '.'), scope_of(text), None, '', 0
    for line in re.sub(r'(^|\n)(pub )?use .*', '', text).split('\n'):
        if line[:1].strip():
            block, most = (line, 99) if re.match('(abbrev )?mutual|(abbrev )?module ', line) else ('', 0)
        head = HEAD.match(line)
        if head and 'module' not in line and len(head[1]) <= most:
            name, line, most = head[3], block + line, len(head[1]) if head[2] else 99 if block else 0
            scope[name] = (module, name)
        elif (part := re.match(r' +(\w+) : ', line)) and name:
            scope.setdefault(part[1], (module, name))
        known[module, name] = (file, known.get((module, name), '  ')[1] + line + '\n', scope)
for file in sorted(glob('crates/*/src/**/*.rt', recursive=True)):
    crate, text = file.split('/')[1], re.sub('//.*', '', open(file).read())
    for name, body in TYPE.findall(text):
        known[crate, name] = (file, known.get((crate, name), '  ')[1] + body, scope_of(text) | scope_of(body))
top = open('crates/qe_program/src/top.rt').read()
clause = next((word for word in sys.argv[1:] if word != '--check'), 'headline')
reached, left = set(), [('qe_program', re.search(rf'ensures {clause} (.*?)\n\n', top, re.S)[1], scope_of(top))]
for crate, text, scope in left:
    for found in {meant(word, crate, scope) for word in WORD.findall(text)} & known.keys() - reached:
        reached.add(found)
        left.append((found[0].split('.')[0], *known[found][1:]))
for file in sorted({known[found][0] for found in reached}):
    if '--check' not in sys.argv or file.split('/')[1][3:] not in NEEDED:
        print(file + ':', *(found[1] for found in known if found in reached and known[found][0] == file))
