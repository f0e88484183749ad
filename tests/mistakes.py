"""Texts with mistakes, and what the desk tells of each: the number and the place, and in words the line, the column and what is wrong.

A mark ^ stands before the place; it is no part of the text. What is told was written by hand, from docs/TEXT.md.
"""
IN_ALL = 'in all at most 256 blocks, 1,024 actions and 65,535 bytes of records'
EXPRESSION = 'an expression has at most 16 numbers, names and operations; '
CLAIM = 'a claim has at most 4 items, with amounts of 1 to 1,000,000, and no resource, bin or sync twice; '

# The text, the number, line and column, and the words.
MISTAKES = [
    # 51
    (b'res(a, 1) ^bin(b, 1);', 51, '1:11', "bin doesn't fit here"),
    (b'sync(s)\n^res(a, 1);', 51, '2:1', "res doesn't fit here; is a semicolon missing before it?"),
    (b'sync(s); # done\n^hold(1);', 51, '2:1', "hold doesn't fit here"),
    (b'res(a, 1^', 51, '1:9', "the text ends here, and isn't complete"),
    (b'class c {\n  do ^65536 { }\n}', 51, '2:6', "65536 doesn't fit here, or is too large"),
    (b'res(^abcdefghijklmnopq, 1);', 51, '1:5', 'a word of 17 letters and digits; a name has at most 16'),
    (b'# caf\xc3\xa9\n^\xc3\xa9(a, 1);', 51, '2:1', "\xc3 doesn't fit here".encode('latin-1')),
    (b'\t# none\r\n\tsync(s) ^@', 51, '2:10', "@ doesn't fit here"),
    (b'sync(s);\rsync(t);\r\n\r\nsync(u)^', 51, '4:8', "the text ends here, and isn't complete"),
    # 52
    (b'res(suite, 1);\nclass c { req [getR(^suit, 1)]; }', 52, '2:21', 'suit is not declared'),
    (b'bin(tape, 1); class c { putR(^tape, 1); }', 52, '1:30', "tape is a bin, and doesn't fit here"),
    (b'class c { ^Hold(3); }', 52, '1:11', 'Hold is not declared'),
    (b'class c { local x, y; y := 1; } class d { ^y := 2; }', 52, '1:43', 'y is not declared'),
    (b'class c { local x, y; putR(^y, 1); }', 52, '1:28', "y is a local, and doesn't fit here"),
    (b'# res(a, 1);\nclass c { putR(^a, 1); }', 52, '2:16', 'a is not declared'),
    # 53
    (b'res(a, 1);\nbin(^a, 1);', 53, '2:5', 'a is declared already, in line 1'),
    (b'class c;\nclass ^c;', 53, '2:7', 'c is declared already, in line 1'),
    (b'class c {\n local a,\n  ^a; }', 53, '3:3', 'a is declared already, in line 2'),
    # 54
    (b'sync(s); class c { ^putS(s, 65); }', 54, '1:20', 'putS breaks a limit: 1 to 64 at once; ' + IN_ALL),
    (b'var(x, 0); class c { ^x := 1+1+1+1+1+1+1+1+1; }', 54, '1:22', 'x breaks a limit: ' + EXPRESSION + IN_ALL),
    (b'res(a, 1); class c { ^try [getR(a, 1), getR(a, 1)] then { } }', 54, '1:22',
     'try breaks a limit: at most 4 branches; ' + CLAIM + IN_ALL),
    (b'^class c; entity(c, 0);', 54, '1:1', 'class breaks a limit: at most 64 of them, each with a body in which blocks nest at '
     'most 8 deep, the body included; ' + IN_ALL),
    (b'class c {' + b' do 1 { }' * 255 + b' ^do 1 { } }', 54, '1:2306', 'do breaks a limit: ' + IN_ALL),
]


# So much of a line is shown before the place, and behind it.
SHOWN = 72


def shown(text, place):
    """The line of the place, or what is near it in a long one, and under the place a mark; a character of UTF-8 takes one column."""
    begin = max(text.rfind(b'\n', 0, place), text.rfind(b'\r', 0, place)) + 1
    end = min(at for at in (text.find(b'\n', place), text.find(b'\r', place), len(text)) if at >= 0)
    begin, end = max(begin, place - SHOWN), min(end, place + SHOWN)
    before = text[begin:place].decode('utf-8')
    return text[begin:end] + b'\n' + ''.join(c if c == '\t' else ' ' for c in before).encode() + b'^\n'


def told(name):
    """Of a file of this name with each text: the text, what stands on standard output, and what on standard error."""
    for marked, number, where, words in MISTAKES:
        place = marked.index(b'^')
        text = marked.replace(b'^', b'')
        words = words if isinstance(words, bytes) else words.encode()
        first = ('%s:%s: refused %d: ' % (name, where, number)).encode()
        yield text, b'refused %d at %d\n' % (number, place), first + words + b'\n' + shown(text, place)
