#!/bin/bash
# Tries the wrong bodies of crates/NAME/wrong, of the crates that are named or of all: the prover must refuse each. It is no
# part of the gate; run it for a crate whose contracts changed:
#
#     bench/wrong.sh [--together] [NAME ..]
#
# It copies the files of this repository as they stand, uncommitted ones too, to a folder below TMPDIR, which is removed at the
# end, puts wrong/ in the place of must-fail/ there, and runs `rt must-fail`. Its last line is `N refused, M not refused`, and
# its status 1 where M isn't 0 or none was tried. An edit that can't be applied or read, or whose check ended early, counts
# as not refused.
#
# With --together the edits of a crate that change the bodies of different functions are put into its source at once, and one
# `rt check` tells of each function by itself: a callee's theorem stands by its contract, so a function whose own goals stay
# open is refused whatever else is wrong. What that doesn't show (an edit outside a body, a function that only waits for
# another one's proof, or that a proof of its own speaks of) is tried one by one as before. It needs python3.
set -u
together=
if [ "${1:-}" = --together ]; then
    together=yes
    shift
fi
root=$(dirname "$(dirname "$(realpath "$0")")")
folder=$(mktemp -d "${TMPDIR:-/tmp}/wrong.XXXXXX") || exit 1
trap 'rm -rf "$folder"' EXIT
cd "$root" || exit 1
git ls-files -z --cached --others --exclude-standard |
    while IFS= read -r -d '' file; do [ ! -f "$file" ] || printf '%s\0' "$file"; done |
    tar --null --no-recursion -T - -cf - | tar -xf - -C "$folder" || exit 1
cd "$folder" || exit 1
git init -q .
[ $# -gt 0 ] || set -- $(for each in crates/*/wrong; do basename "$(dirname "$each")"; done)
for name in "$@"; do
    if [ ! -d "crates/$name/wrong" ]; then
        echo "crates/$name/wrong isn't there"
        exit 1
    fi
    rm -rf "crates/$name/must-fail"
    mv "crates/$name/wrong" "crates/$name/must-fail"
done
: >told.txt
[ -z "$together" ] || python3 - "$@" <<'PYTHON' | tee -a told.txt
import glob, os, re, shutil, subprocess, sys


def opens(line, indent, is_head):
    """Whether a function's body begins behind this line."""
    return line == indent + '{' or line.endswith('{') and (is_head or line.startswith(indent + ')'))


def functions_of(crate, path):
    """The functions of a file in rt's layout: the path of each, and the lines strictly between its braces."""
    module = path[len('src/'):-len('.rt')].split('/')
    if module[-1] in ('lib', 'main', 'mod'):
        module.pop()
    found, owner, lines = [], None, open(f'crates/{crate}/{path}').read().split('\n')
    for at, line in enumerate(lines):
        if line.startswith('impl'):
            head = re.sub(r'<[^<>]*>', '', re.sub(r'<[^<>]*>', '', re.sub(r'<[^<>]*>', '', line)))
            names = re.match(r'impl\s+(?:(\w+)\s+for\s+)?(\w+)', head)
            owner = names and names.group(2) + (names.group(1) or '')
        elif line == '}':
            owner = None
        start = re.match(r'( *)(?:pub(?:\([a-z]+\))? )?(?:const )?fn (\w+)', line)
        if not start:
            continue
        indent = start.group(1)
        if indent and owner is None:
            continue
        first = at
        while not opens(lines[first], indent, first == at) and not lines[first].endswith((';', '{}')):
            first += 1
        if lines[first].endswith((';', '{}')):
            continue
        last = first
        while lines[last] != indent + '}':
            last += 1
        parts = [crate] + module + ([owner] if indent else []) + [start.group(2)]
        found.append(('::'.join(parts), first, last))
    return found


def pairs_of(edit):
    """The changes of an edit: a file, a line and what stands in its place."""
    path = old = None
    pairs = []
    for line in open(edit).read().split('\n'):
        if line.startswith('file: '):
            path = line[6:]
        elif line.startswith('old: '):
            old = line[5:]
        elif line.startswith('new: '):
            pairs.append((path, old, line[5:]))
    return pairs


def changed_by(crate, edit, functions):
    """The functions in whose bodies an edit is, or None where it is somewhere else too."""
    names = set()
    for path, old, _ in pairs_of(edit):
        if not path or not path.startswith('src/') or not os.path.exists(f'crates/{crate}/{path}'):
            return None
        if path not in functions:
            functions[path] = functions_of(crate, path)
        text = open(f'crates/{crate}/{path}').read()
        if text.count(old) != 1:
            return None
        at = text[:text.index(old)].count('\n')
        within = [name for name, first, last in functions[path] if first < at < last]
        if len(within) != 1:
            return None
        names.add(within[0])
    return names or None


def apply(crate, edit):
    for path, old, new in pairs_of(edit):
        text = open(f'crates/{crate}/{path}').read()
        if text.count(old) != 1:
            return False
        with open(f'crates/{crate}/{path}', 'w') as file:
            file.write(text.replace(old, new))
    return True


def refused_in(crate, names, told):
    """Of these functions one that has open goals of its own."""
    for name in names:
        lines = re.findall(rf'^fn {re.escape(name)}: (.*)$', told, re.M)
        if len(lines) == 1 and 'did not prove' in lines[0] and 'waits for' not in lines[0]:
            return name
    return None


for crate in sys.argv[1:]:
    functions, rounds = {}, []
    for edit in sorted(glob.glob(f'crates/{crate}/must-fail/*.edit')):
        names = changed_by(crate, edit, functions)
        if names is None:
            continue
        for each in rounds:
            if not any(names & other for _, other in each):
                each.append((edit, names))
                break
        else:
            rounds.append([(edit, names)])
    for each in rounds:
        if len(each) == 1:
            continue
        shutil.copytree(f'crates/{crate}/src', f'{crate}.src')
        tried = [(edit, names) for edit, names in each if apply(crate, edit)]
        run = subprocess.run(['rt', 'check'], cwd=f'crates/{crate}', stdout=subprocess.PIPE, stderr=subprocess.STDOUT, text=True)
        shutil.rmtree(f'crates/{crate}/src')
        shutil.move(f'{crate}.src', f'crates/{crate}/src')
        for edit, names in tried if '\nlogic=not-proved' in run.stdout else []:
            name = refused_in(crate, names, run.stdout)
            if name:
                print(f'{crate}/{os.path.basename(edit)}: refused, by the goals of {name}', flush=True)
                os.remove(edit)
PYTHON
left=
for name in "$@"; do
    if ls crates/"$name"/must-fail/*.edit >/dev/null 2>&1; then left="$left $name"; fi
done
# Without a name rt would try the edits of the crates that have some of their own.
[ -z "$left" ] || rt must-fail $left 2>&1 | tee -a told.txt
refused=$(grep -c '\.edit: refused' told.txt)
others=$(grep -cE '\.edit: (NOT REFUSED|BAD EDIT|NOT TRIED)' told.txt)
echo "$refused refused, $others not refused"
[ "$others" = 0 ] && [ "$refused" -gt 0 ]
