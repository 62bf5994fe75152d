"""The exports as a host may call them: host/pointer_desk.h and host/pointer_desk.rs declare each as its function in crates/pointer_desk/src has it:
the same parameters by name and in order, the same types, and const exactly where nothing is written. Prints what differs."""
import glob
import os
import re
import sys

os.chdir(os.path.join(os.path.dirname(os.path.abspath(__file__)), '..'))
C = {'u8': 'uint8_t', 'u16': 'uint16_t', 'u32': 'uint32_t', 'u64': 'uint64_t', 'usize': 'size_t', 'DeskAnswer': 'desk_answer', 'DeskOrderedAnswer': 'desk_ordered_answer',
     'DeskShare': 'desk_share_answer', 'DeskPart': 'desk_part', 'DeskLine': 'desk_line'}
RUST = {'DeskAnswer': 'CAnswer', 'DeskOrderedAnswer': 'COrderedAnswer', 'DeskShare': 'CShare', 'DeskPart': 'CPart', 'DeskLine': 'CLine'}
NAMES = {'posts': 'to_post', 'takes': 'to_receive'}     # the code's words for the two tables of numbers


def text(path):
    with open(path, encoding='utf-8') as f:
        return re.sub(r'/\*.*?\*/|//[^\n]*', '', f.read(), flags=re.S)


def flat(words):
    return ' '.join(words.split()).replace('( ', '(').replace(', )', ')').replace(',)', ')')


def declared():
    """Of each export what C and what Rust must declare."""
    for path in sorted(glob.glob('crates/pointer_desk/src/*.rt')):
        for name, given, gives in re.findall(r'^pub extern "C" fn (\w+)\(([^)]*)\) -> (\w+)', text(path), re.M):
            in_c, in_rust = [], []
            for part in filter(None, (p.strip() for p in given.split(','))):
                word, kind = re.split(r':\s*', part)
                word, slice_of = NAMES.get(word, word), re.fullmatch(r'&(mut )?\[(\w+)\]', kind)
                if slice_of:
                    in_c += ['%s%s *%s' % ('' if slice_of[1] else 'const ', C[slice_of[2]], word), 'size_t %s_len' % word]
                    in_rust += ['%s: *%s %s' % (word, 'mut' if slice_of[1] else 'const', slice_of[2]), '%s_len: usize' % word]
                else:
                    in_c.append('%s %s' % (C[kind], word))
                    in_rust.append('%s: %s' % (word, kind))
            yield '%s %s(%s);' % (C[gives], name, ', '.join(in_c)), 'fn %s(%s) -> %s;' % (name, ', '.join(in_rust), RUST.get(gives, gives))


due = list(declared())
header = {flat(d) for d in re.findall(r'^\w+ desk_\w+\([^)]*\);', text('host/pointer_desk.h'), re.M)}
module = {flat(d) for d in re.findall(r'^    fn desk_\w+\([^)]*\) -> \w+;', text('host/pointer_desk.rs'), re.M)}
wrong = header ^ {c for c, _ in due} | module ^ {rust for _, rust in due}
print('\n'.join(sorted(wrong)))
sys.exit(bool(wrong) or not due)
