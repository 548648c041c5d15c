"""The MIR of a function, as `rt mir` prints it. A place is (local, steps); a body is a list of statements."""
import re
import subprocess


def items(x):
    r = []
    while isinstance(x, list) and x and x[0] == 'lcons':
        r.append(x[1])
        x = x[2]
    return r


def flat(b):
    return flat(b[1]) + flat(b[2]) if isinstance(b, list) and b[0] == 'seq' else [b]


def place(p):
    return int(p[1]), [(s[0], s[1]) for s in items(p[2])]


def callee(call):
    """The crate and the name of the function that a call names."""
    return tuple(call[1][1][1].strip('"').split('::'))


def function(root, crate, name):
    """The number of a function's locals, and its body."""
    out = subprocess.run(['rt', 'mir', crate], cwd=root, capture_output=True, text=True)
    words = re.findall(r'"[^"]*"|\(|\)|[^\s()"]+', out.stdout)
    pos = 0

    def tree():
        nonlocal pos
        w = words[pos]
        pos += 1
        if w != '(':
            return w
        l = []
        while words[pos] != ')':
            l.append(tree())
        pos += 1
        return l

    def find(x):
        if isinstance(x, list):
            if x[:2] == ['fn-def', '"%s::%s"' % (crate, name)]:
                return x[2]
            for y in x:
                r = find(y)
                if r:
                    return r

    all_of_it = []
    while pos < len(words):
        all_of_it.append(tree())
    f = find(all_of_it)
    if f is None:
        raise SystemExit('no MIR of %s::%s:\n%s' % (crate, name, out.stderr))
    return len(items(f[4])), flat(f[5])
