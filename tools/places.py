#!/usr/bin/env python3
"""Lists the places that docs/DESIGN-PASS.md counts, one part for each of its points, from the sources as they stand.

    python3 tools/places.py            all parts, with their counts
    python3 tools/places.py counts     the counts alone
"""
import collections, glob, re, sys

FILES = sorted(glob.glob("crates/*/src/**/*.rt", recursive=True))


def lines(pattern, files=FILES, skip=r"^\s*//"):
    """Lines of code that the pattern is found in."""
    found = []
    for f in files:
        for n, text in enumerate(open(f, encoding="utf-8"), 1):
            if re.search(pattern, text) and not re.search(skip, text):
                found.append((f, n, text.strip()))
    return found


def functions():
    """Each function with its contract and its body: (file, line, name, head, body)."""
    for f in FILES:
        text = open(f, encoding="utf-8").read()
        for m in re.finditer(r"^([ ]*)(?:#\[.*\]\n[ ]*)?(?:pub(?:\(crate\))? )?fn (\w+)", text, re.M):
            indent = m.group(1)
            # the body begins at the brace at the function's own indent, or at the end of its first line
            rest = text[m.end():]
            own = re.search(r"(?:^%s|\) (?:-> [^\n]*? )?)\{\n" % indent, rest, re.M)
            semi = re.search(r";\n", rest)
            end = re.search(r"^%s\}" % indent, rest, re.M)
            if not own or not end or own.start() > end.start() or (semi and semi.start() < own.start()):
                continue
            head, body = rest[: own.start()], rest[own.end(): end.start()]
            yield f, text[: m.start()].count("\n") + 1, m.group(2), head, body


def shape(body):
    """The body with every name, number and text made the same: twins have one shape."""
    body = re.sub(r"//[^\n]*", "", body)
    tokens = re.findall(r'b?"[^"]*"|b?\'[^\']*\'|\w+|[^\s\w]', body)
    kept = {"if", "else", "for", "in", "while", "loop", "match", "return", "let", "mut", "Some", "None", "Ok", "Err", "as", "break"}
    out = []
    for t in tokens:
        out.append(t if t in kept or not re.match(r"\w|b?[\"']", t) else "_")
    return " ".join(out)


def twins():
    groups = collections.defaultdict(list)
    for f, n, name, head, body in functions():
        s = shape(body)
        if len(s.split()) >= 14:
            groups[s].append((f, n, name))
    return [g for g in groups.values() if len(g) > 1]


def clauses(word):
    """Functions with the word in a clause."""
    return [(f, n, name) for f, n, name, head, _ in functions() if word in head]


def show(title, found):
    print("%s: %d" % (title, len(found)))
    if sys.argv[1:] != ["counts"]:
        for x in found:
            print("   ", ":".join(str(y) for y in x) if isinstance(x, tuple) else x)


def main():
    show("1 own enums", lines(r"^\s*(pub(\(crate\))? )?enum "))
    show("1 flags in structs and parameters", lines(r"^\s*(pub(\(crate\))? )?\w+: bool,$"))
    show("1 functions that answer a u8", lines(r"\) -> u8"))
    groups = twins()
    show("2 functions of one shape, in groups", ["  ".join("%s:%d %s" % x for x in g) for g in groups])
    print("2 functions in those groups: %d" % sum(len(g) for g in groups))
    show("3 loops with an index or a count", lines(r"\bwhile |\bfor \w+ in [^ ]*\.\.|\.enumerate\(\)|\bloop \{"))
    show("3 loops over items that look for one", [
        (f, n, name) for f, n, name, _, body in functions()
        if re.search(r"for \w+ in (?!.*(\.\.|enumerate))[^\n]*\{\n\s*if [^\n]*\{\n\s*return", body)])
    show("4 an Option or a Result taken apart and put together again", lines(r"None => None|None => Err\(|Some\(\w+\) => (Ok|Some)\("))
    show("4 functions that print, compare or convert by hand", lines(r"fn (same|typed|call|print_\w+|put_number|row_name)\b"))
    for word in ["cell_said ", "net_of net_text.now net.now", "net_of text.now net.now", "(net_of bs net.now)", "ledger_of (", "pile_of P.Net.net", "board_pile P", "monitor_pile P"]:
        show("5 functions with `%s` in a clause" % word, clauses(word))
    show("6 arrays in structs", lines(r"^\s*(pub(\(crate\))? )?\w+: \[\w+; \w+\],?$"))
    show("7 matches on an own enum without values, or on which step", lines(r"match (side|verb|case|before|end|firing|order|call|\*call|state)\b"))
    answers = glob.glob("crates/*/proofs/**/Answers.antt", recursive=True)
    show("8 files of answers", answers)
    own = [f for f in glob.glob("crates/*/proofs/**/*.antt", recursive=True) if f.count("/") == 3]
    total = 0
    for f in own:
        total += len(re.findall(r"^(?:abbrev |unfoldable )?(?:pub )?[\w'-]+ : ", open(f, encoding="utf-8").read(), re.M))
    print("8 lemmas in files of their own: %d, in %d files" % (total, len(own)))


main()
