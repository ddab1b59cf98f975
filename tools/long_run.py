#!/usr/bin/env python3
"""long_run.py ITEMS | long_run.py deep: runs for timing the programs and for measuring their stacks.

Of many items: tabs are opened, loaded, framed, spoken to and closed, over and over, so that rows are freed and used again and no table runs full.
The deep one: window 1 and 31 frames in one another, as many as there may be, windows 2 to 32, each loaded.
"""
import itertools
import sys


def atom(x):
    s = str(x)
    return f"{len(s)}:{s}"


def term(x):
    return "(" + "".join(map(term, x)) + ")" if isinstance(x, (list, tuple)) else atom(x)


def item(event, choices, fresh):
    return term([event, choices, fresh])


def trigger(choices, fresh=()):
    return item([1, 1, "TRIGGER"], choices, fresh)


def resolved(host, n):
    return item([1, 2, ["DNSResolved", host, 9, ["dns", n]]], [], [])


def answered(n, headers, body, fresh=()):
    return item([1, 9, ["HTTPResp", ["request", n], 200, headers, body]], [], fresh)


def url(host, path):
    return ["URL", "P", host, path, [], []]


def script(window, cookies, local, command, fresh=()):
    return trigger(["script", ["window", window], 7, cookies, local, [], command], fresh)


def tab(k):
    """The life of one tab: two pages with a frame, a cookie, an XHR and a message, then back and forward, then closed."""
    host, top, frame = 5 + k % 15, 10 * k + 1, 10 * k + 2
    sends = lambda n: [["request", 10 * k + n], ["dns", 10 * k + n]]
    page = lambda n: [["document", 10 * k + n]]
    yield trigger(["urlbar", "new", "P", host, 7, [], []], [["window", top]] + sends(1))
    yield resolved(host, 10 * k + 1)
    yield answered(10 * k + 1, [["Set-Cookie", [[3, [k % 1000, "F", "F", "T"]]]]], [1, 0], page(1))
    yield script(top, [[4, [k % 1000, "F", "F", "F"]]], 8, ["XMLHTTPREQUEST", url(host, 9), "POST", 6, 1], sends(2))
    yield resolved(host, 10 * k + 2)
    yield answered(10 * k + 2, [], 12)
    yield script(top, [], 9, ["IFRAME", url(host + 1, 8), "SELF"], [["window", frame]] + sends(3))
    yield resolved(host + 1, 10 * k + 3)
    yield answered(10 * k + 3, [], [2, 0], page(3))
    yield script(frame, [], 9, ["POSTMESSAGE", ["window", top], 5, []])
    yield script(top, [], 9, ["HREF", url(host, 6), ["window", top], "F"], sends(4))
    yield resolved(host, 10 * k + 4)
    yield answered(10 * k + 4, [], [3, 0], page(4))
    yield trigger(["back", ["window", top]])
    yield trigger(["forward", ["window", top]])
    yield script(top, [], 9, ["CLOSE", ["window", top]])


def deep():
    for k in range(1, 33):
        numbers = [["window", k], ["request", k], ["dns", k]]
        yield trigger(["urlbar", "new", "P", 5, 7, [], []], numbers) if k == 1 else script(k - 1, [], 9, ["IFRAME", url(5, 8), "SELF"], numbers)
        yield resolved(5, k)
        yield answered(k, [], [1, 0], [["document", k]])


def main(kind):
    many = (text for k in itertools.count() for text in tab(k))
    sys.stdout.write("".join(deep() if kind == "deep" else itertools.islice(many, int(kind))))


if __name__ == "__main__":
    main(sys.argv[1])
