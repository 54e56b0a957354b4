"""Where the parts of the repository stand. Imported before modules of tests/reference, it lets them be found."""

import pathlib
import shutil
import sys

ROOT = pathlib.Path(__file__).resolve().parent.parent
sys.path.insert(0, str(ROOT / 'tests/reference'))
LIBRARY = 'crates/solgwid/out/libsolgwid.a'
LEVEL = 9     # the level of the reference at which the engine stands (tests/reference/README.md)


def built(path, command):
    """The path of what the command builds; where it is missing the script ends and names the command."""
    if not (ROOT / path).is_file():
        sys.exit(f'{path} is missing: `{command}` builds it')
    return ROOT / path


def program(name):
    return built(f'crates/{name}/out/{name}', f'cd crates/{name} && rt run </dev/null')


def static_library():
    needed('cc', 'a C compiler')
    return built(LIBRARY, 'cd crates/solgwid && rt lib')


def needed(command, what):
    if not shutil.which(command):
        sys.exit(f'`{command}` is missing: {what} is needed')
