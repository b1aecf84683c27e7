"""What the scripts that try texts have in common: the tables of docs/LANGUAGE.md, and which program is of the sources as they stand."""
import glob
import os

TOP = os.path.dirname(os.path.dirname(os.path.abspath(__file__)))

# The reserved words, in the order in which they are numbered.
WORDS = '''
    alignas alignof asm auto bool break case catch char char8_t char16_t char32_t class concept const const_cast
    consteval constexpr constinit continue contract_assert co_await co_return co_yield decltype default delete do
    double dynamic_cast else enum explicit export extern false float for friend goto if inline int long mutable
    namespace new noexcept nullptr operator private protected public register reinterpret_cast requires return short
    signed sizeof static static_assert static_cast struct switch template this thread_local throw true try typedef
    typeid typename union unsigned using virtual void volatile wchar_t while
    and and_eq bitand bitor compl not not_eq or or_eq xor xor_eq
'''.split()
PUNCTUATORS = '''
    { } [ ] [: :] ( ) ; : :: , . ? -> + - * / % ^ ^^ & | ~ ! = < > <= >= == != << >> && || ++ --
    += -= *= /= %= ^= &= |= <<= >>=
'''.split()


def built(name):
    """The paths where a program of the repository is built, the proved one first."""
    return [f'{TOP}/crates/{name}/out/{name}', f'{TOP}/out/unproved/{name}']


def fresh(name):
    """The program of that name as the sources stand, proved or not, or None where none is built."""
    sources = glob.glob(f'{TOP}/crates/*/src/**/*.rt', recursive=True) + [f'{TOP}/crates.txt']
    newest = max(map(os.path.getmtime, sources))
    return next((it for it in built(name) if os.path.exists(it) and os.path.getmtime(it) >= newest), None)
