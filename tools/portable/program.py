"""The program as WebAssembly: its module as C, compiled and linked by the toolchain's clang with what it asks of a page (system.c)."""
import os
import subprocess
import tempfile
from pathlib import Path

from .module import HEAP, Module

PREFIX = 'program_'
# What the program asks of others, besides its heap.
SYSTEM = (
    'open', 'close', '__xpg_strerror_r', 'read', 'write', '__write', 'rattle_arg', 'rattle_errno', 'rattle_set_errno', '__sysv_signal',
    '__x86_get_cpuid_feature_leaf',
)
TARGET = '--target=wasm32-unknown-unknown --no-default-config -mcpu=mvp -mbulk-memory -msign-ext -mnontrapping-fptoint'.split()
WARNINGS = '-Wall -Wextra -Werror -Wno-unused-but-set-variable -Wno-unused-parameter'.split()
STACK = 4 << 20


class Failed(Exception):
    """What a tool said that failed."""


def run(*words):
    done = subprocess.run([str(word) for word in words], stdin=subprocess.DEVNULL, capture_output=True, text=True, check=False)
    if done.returncode != 0:
        raise Failed(f'{Path(words[0]).name} failed: {done.stderr[:2000]}')
    return done.stdout


def compiler():
    if 'CLANG' in os.environ:
        return os.environ['CLANG']
    return Path(run('rt', 'doc').strip()).parent / 'toolchain/bin/clang'


def program_of(module, files, portable):
    """The octets of WebAssembly of a module's text. `files` has system.c and the headers for it, `portable` has heap.c and portable.h."""
    text = Module(module, PREFIX, HEAP + SYSTEM).text('/* The program. */')
    clang = compiler()
    with tempfile.TemporaryDirectory() as name:
        folder = Path(name)
        (folder / 'program.c').write_text(text)
        (folder / 'heap.c').write_text((portable / 'heap.c').read_text().replace('portable_rattle', f'{PREFIX}rattle'))
        objects = []
        for source in (folder / 'program.c', folder / 'heap.c', files / 'system.c'):
            objects.append(folder / f'{source.stem}.o')
            run(clang, *TARGET, *WARNINGS, '-std=c99', '-Os', '-ffreestanding', '-nostdinc', '-isystem', files / 'include', f'-I{portable}',
                '-c', source, '-o', objects[-1])
        linker = folder / 'wasm-ld'
        linker.symlink_to(clang)
        run(linker, '-m', 'wasm32', '--no-entry', f'--export={PREFIX}main', '-z', f'stack-size={STACK}', '--stack-first', '--gc-sections',
            '--strip-all', '-o', folder / 'program.wasm', *objects)
        return (folder / 'program.wasm').read_bytes()
