"""Runs the code and the commands of the pages for users, and compares what they print with what the page says.

Above each block of these pages stands a comment that says how it is run:

  <!-- quote: FILE -->      it stands in FILE, which a test runs (tests/docs compares it)
  <!-- program -->          it is a program in C or C++, compiled with the archive and run
  <!-- body -->             it is the body of a main in C or C++
  <!-- refused: WORDS -->   it is a body that does not compile, and the compiler says WORDS
  <!-- run -->              these are commands, run from the top of the repository
  <!-- prints -->           the block before it prints this
  <!-- in: FILE .. -->      each line stands in one of these files, which run it

What needs c/out/liblockfree.a, the shared library beside it or the built program is skipped when that is not there."""
import os
import re
import shutil
import subprocess
import tempfile

PAGES = ('README.md', 'docs/cpp.md', 'docs/c-api.md', 'docs/cli.md', 'docs/lifetime.md')
# Each block of these says how it is run; of the others those that say it are.
STRICT = ('README.md', 'docs/cpp.md', 'docs/c-api.md', 'docs/lifetime.md')
BUILT = 'c/out/liblockfree.a'
ARCHIVE = os.environ.get('LOCKFREE_ARCHIVE', BUILT)
SHARED = 'c/out/liblockfree.so'
PROGRAM = 'crates/lockfree_tool/out/lockfree_tool'
BLOCK = re.compile(r'(?:^<!-- ([a-z]+)(?:: ([^\n]*?))? -->\n)?^```(\w*)\n(.*?)\n?^```', re.S | re.M)
# What takes long, and what .ci/run runs by itself.
ELSEWHERE = ('c/build', './lockfree --build', '.ci/run', 'c/package')
LIMIT = 120

HEADS = {
    'cpp': '#include <lockfree.hpp>\n#include <atomic>\n#include <chrono>\n#include <cstdio>\n#include <memory>\n#include <string>\n'
           '#include <thread>\n#include <vector>\nint main() {\n%s\n}\n',
    'c': '#include <lockfree.h>\n#include <stdio.h>\nint main(void)\n{\n%s\n    return 0;\n}\n',
}
COMPILERS = {
    'cpp': ['g++', '-std=c++17', '-O1', '-Wall', '-Wextra', '-Werror', '-Wno-unused-variable', '-Wno-unused-but-set-variable'],
    'c': ['gcc', '-std=c11', '-O1', '-Wall', '-Wextra', '-Werror', '-Wno-unused-variable', '-Wno-unused-but-set-variable'],
}


def compiled(code, language, room):
    """Compiles a program, and returns the compiler's run."""
    source, program = f'{room}/page.{language}', f'{room}/page'
    with open(source, 'w', encoding='utf-8') as file:
        file.write(code)
    words = [*COMPILERS[language], '-I', 'c', source, ARCHIVE, '-pthread', '-o', program]
    return subprocess.run(words, check=False, capture_output=True, text=True)


def run(words, room):
    """Runs a program or a script, with its files for /tmp in a room of its own."""
    here = dict(os.environ, TMPDIR=room)
    try:
        return subprocess.run(words, check=False, capture_output=True, text=True, timeout=LIMIT, env=here, stdin=subprocess.DEVNULL)
    except subprocess.TimeoutExpired as late:
        return subprocess.CompletedProcess(words, 1, '', f'more than {late.timeout} seconds')


def commands(code, room):
    """The commands of a block that are run here, and what they need."""
    lines = [line for line in code.splitlines() if line.strip() not in ELSEWHERE]
    script = ('\n'.join(lines) + '\n').replace('/tmp/', f'{room}/')
    needs = [it for it, word in ((ARCHIVE, 'liblockfree.a'), (SHARED, 'liblockfree.so'), (BUILT, 'cmake'), (PROGRAM, './lockfree')) if word in script]
    # (the program itself, since the launcher may run it without a proof, which takes a minute)
    return script.replace(BUILT, ARCHIVE).replace('./lockfree ', f'{PROGRAM} ').replace('./lockfree\n', f'{PROGRAM}\n'), needs


def made(kind, says, language, code, room):
    """Runs a block. Returns what is wrong, if anything is, and what it printed; or what it needs that is not there."""
    if kind == 'run':
        script, needs = commands(code, room)
        missing = [it for it in needs if not os.path.exists(it)]
        if missing:
            return None, f'{missing[0]} is not built'
        done = run(['bash', '-euo', 'pipefail', '-c', script], room)
        return (done.stderr[-600:] if done.returncode else ''), done.stdout
    if not os.path.exists(ARCHIVE):
        return None, f'{ARCHIVE} is not built'
    whole = code if kind == 'program' else HEADS[language] % code
    told = compiled(whole, language, room)
    if kind == 'refused':
        return ('' if told.returncode and says in told.stderr else f'compiles, or says: {told.stderr[-400:]}'), ''
    if told.returncode:
        return told.stderr[-800:], ''
    done = run([f'{room}/page'], room)
    return (f'status {done.returncode} {done.stderr[-300:]}' if done.returncode else ''), done.stdout


def stands(code, files):
    """Whether each line of a block stands in one of these files."""
    texts = [open(it, encoding='utf-8').read() for it in files.split()]
    lost = [it for it in code.splitlines() if it.strip() and not any(it.strip() in text for text in texts)]
    return '' if not lost else f'not in {files}: {lost[0]}'


def of(name, text):
    """Of each block of a page what it is, and whether it holds; None where it is skipped."""
    printed = None
    for number, (kind, says, language, code) in enumerate(BLOCK.findall(text), 1):
        what = f'{name}: block {number}'
        if kind == 'quote':
            printed = ''
        elif kind == 'in':
            wrong = stands(code, says)
            yield f'{what}: {wrong}', not wrong
        elif kind == 'prints':
            if printed is not None:
                same = code.split() == printed.split()
                yield f'{what}: it prints {printed[:300]!r}', same
        elif kind in ('program', 'body', 'refused', 'run'):
            room = tempfile.mkdtemp()
            try:
                wrong, output = made(kind, says, language, code, room)
            finally:
                shutil.rmtree(room)
            printed = None if wrong is None else output
            yield (f'{what}: {output}', None) if wrong is None else (f'{what}: {wrong}', not wrong)
        elif name in STRICT:
            yield f'{what}: no comment says how it is run', False
