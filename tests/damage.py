"""Damage to bytes, to the tokens of a JSON text, and to lines and words; each call takes a source of random numbers first."""

import re

TOKEN = re.compile(rb'"(?:[^"\\]|\\.)*"|[-+.\w]+|\s+|.', re.DOTALL)
ODD_BYTES = (0, 9, 10, 13, 32, 34, 44, 45, 46, 47, 48, 57, 58, 91, 92, 93, 123, 125, 127, 128, 192, 239, 255)
ODD_NUMBERS = (b"-1", b"0", b"-0", b"00", b"1", b"255", b"256", b"32767", b"32768", b"65535", b"65536", b"4294967295", b"4294967296", b"9223372036854775808",
               b"18446744073709551615", b"18446744073709551616", b"1.5", b"0.0", b"1e2", b"1E-2", b"1e308", b"1e309", b"-1e999", b"1" * 400, b"0." + b"3" * 2000, b"+1", b".5", b"1.", b"NaN")
ODD_STRINGS = (b'""', b'" "', b'"-"', b'"internet"', b'"local"', b'"\\u0000"', b'"\\u0065ni-a"', b'"\\ud800"', b'"\\ud83d\\ude00"', b'"\xc3\xa9"', b'"\xff"', b'"\\x"', b'"\\"', b'"a\tb"',
               b'"' + b"x" * 256 + b'"', b'"' + b"x" * 257 + b'"', b'"0.0.0.0/0"', b'"0.0.0.0/00"', b'"10.0.0.0/33"', b'"10.0.0.1/16"', b'"255.255.255.255/32"', b'"10.0.01.4"', b'"10.0.1.256"',
               b'"10.0.1"', b'"65535"', b'"-1"', b'"tcp"', b'"eni-0-0-0"', b'"vpc-0"', b"null", b"true", b"[]", b"{}", b"[[]]", b'[{}]', b'{"a":1,"a":2}')
ODD_WORDS = (b"", b"-", b"--", b"internet", b"from", b"to", b"open", b"answer", b"tcp", b"max", b"src", b"80", b"80-", b"-80", b"80-80-80", b"90-80", b"65536", b"0-65536", b"007", b"10.0.1.10/32",
             b"10.0.1.1/0", b"0.0.0.0/0", b"256.1.1.1", b"1.2.3", b"eni-0-0-0", b"20000", b"20001", b"100000", b"100001", b"99999999999999999999", b"1e3", b"\xc3\xa9", b"\xff", b"a b", b"a\nb", b"x" * 300)


def at(rng, data):
    return rng.randrange(len(data)) if data else 0


# ---- bytes

def flip(rng, data):
    k = at(rng, data)
    return data[:k] + bytes([data[k] ^ 1 << rng.randrange(8)]) + data[k + 1 :] if data else b"\0"


def overwrite(rng, data):
    k = at(rng, data)
    return data[:k] + bytes([rng.choice(ODD_BYTES)]) + data[k + 1 :]


def insert(rng, data):
    k = at(rng, data)
    return data[:k] + bytes([rng.choice(ODD_BYTES)]) * rng.choice((1, 1, 2, 300)) + data[k:]


def cut(rng, data):
    return data[: at(rng, data)] if rng.random() < 0.5 else data[at(rng, data) :]


def cut_out(rng, data):
    k = at(rng, data)
    return data[:k] + data[k + rng.choice((1, 1, 2, 8, 64, 500)) :]


def repeat_part(rng, data):
    a = at(rng, data)
    part = data[a : a + rng.choice((1, 4, 30, 300))] * rng.choice((1, 1, 3, 50))
    b = at(rng, data)
    return data[:b] + part + data[b:]


BYTES = (flip, flip, overwrite, overwrite, insert, cut, cut_out, cut_out, repeat_part)


# ---- tokens of JSON

def close(tokens, k):
    """The place after the value that begins at a place."""
    depth = 0
    for n in range(k, min(len(tokens), k + 3000)):
        depth += (tokens[n] in b"[{") - (tokens[n] in b"]}") if len(tokens[n]) == 1 else 0
        if depth <= 0:
            return n + 1
    return k + 1


def places(tokens, kind):
    return [k for k, token in enumerate(tokens) if kind(token)]


def is_string(token):
    return token[:1] == b'"' and len(token) > 1


def is_number(token):
    return token[:1].isdigit()


def some(rng, tokens, kind):
    found = places(tokens, kind)
    return rng.choice(found) if found else at(rng, tokens)


def exchange(rng, tokens):
    kind = is_string if rng.random() < 0.8 else is_number if rng.random() < 0.7 else bool
    a, b = some(rng, tokens, kind), some(rng, tokens, kind)
    tokens[a], tokens[b] = tokens[b], tokens[a]


def copy_token(rng, tokens):
    kind = is_string if rng.random() < 0.8 else is_number
    tokens[some(rng, tokens, kind)] = tokens[some(rng, tokens, kind)]


def odd_number(rng, tokens):
    tokens[some(rng, tokens, is_number)] = rng.choice(ODD_NUMBERS)


def odd_string(rng, tokens):
    tokens[some(rng, tokens, is_string)] = rng.choice(ODD_STRINGS)


def spelled_otherwise(rng, tokens):
    """One character of a string as an escape: it means the same."""
    k = some(rng, tokens, is_string)
    n = rng.randrange(1, max(2, len(tokens[k]) - 1))
    if tokens[k][n : n + 1].isalnum() and b"\\" not in tokens[k]:
        tokens[k] = tokens[k][:n] + b"\\u%04x" % tokens[k][n] + tokens[k][n + 1 :]


def remove(rng, tokens):
    k = at(rng, tokens)
    del tokens[k : close(tokens, k)]


def remove_member(rng, tokens):
    k = some(rng, tokens, lambda token: token in (b",", b"[", b"{"))
    end = k + 1
    while end < len(tokens) and tokens[end] not in (b",", b"]", b"}"):
        end = close(tokens, end)
    del tokens[k + 1 : end + (tokens[end : end + 1] == [b","])]


def repeat_row(rng, tokens):
    k = some(rng, tokens, lambda token: token == b"{")
    row = tokens[k : close(tokens, k)]
    tokens[k:k] = (row + [b","]) * rng.choice((1, 1, 1, 2, 40))


def repeat_member(rng, tokens):
    """A member twice, the second time mostly with another value of the text."""
    k = some(rng, tokens, lambda token: token == b":")
    if 0 < k < len(tokens) - 1:
        end = close(tokens, k + 1)
        other = some(rng, tokens, is_string if rng.random() < 0.5 else lambda token: token in (b"[", b"{"))
        value = tokens[other : close(tokens, other)] if rng.random() < 0.7 else tokens[k + 1 : end]
        tokens[end:end] = [b",", tokens[k - 1], b":", *value]


def nest(rng, tokens):
    depth = rng.choice((1, 2, 100, 110, 120, 124, 125, 126, 127, 128, 129, 200, 3000))
    k = some(rng, tokens, lambda token: is_string(token) or token in (b"{", b"["))
    value = b"".join(tokens[k : close(tokens, k)])
    before, after = (b"[", b"]") if rng.random() < 0.6 else (b'{"a":', b"}")
    tokens[k : close(tokens, k)] = [before * depth + value + after * depth]


def unknown_member(rng, tokens):
    k = some(rng, tokens, lambda token: token == b"{")
    depth = rng.choice((0, 1, 100, 122, 126, 127, 200))
    tokens.insert(k + 1, b'"Unknown%d":' % rng.randrange(3) + b"[" * depth + b'{"a":[1.5,null]}' + b"]" * depth + b",")


TOKENS = (exchange, exchange, exchange, copy_token, copy_token, copy_token, odd_number, odd_number, odd_string, odd_string, spelled_otherwise, remove, remove_member, remove_member, repeat_row, repeat_row,
          repeat_member, repeat_member, nest, unknown_member)


def json_text(rng, text):
    """A JSON text with one to four changes, of tokens mostly."""
    if rng.random() < 0.2:
        for _ in range(rng.choice((1, 1, 2, 4))):
            text = rng.choice(BYTES)(rng, text)
        return text
    tokens = TOKEN.findall(text)
    for _ in range(rng.choice((1, 1, 1, 2, 3, 4))):
        if tokens:
            rng.choice(TOKENS)(rng, tokens)
    text = b"".join(tokens)
    return rng.choice((b"\xef\xbb\xbf", b" ", b"\0")) + text if rng.random() < 0.01 else text


# ---- lines and words

def words_of(rng, words):
    """Words with one to three changes."""
    words = list(words)
    for _ in range(rng.choice((1, 1, 2, 3))):
        k, what = at(rng, words), rng.randrange(7)
        if what == 0:
            words[k : k + 1] = []
        elif what == 1:
            words.insert(k, rng.choice(words or [b"x"]))
        elif what == 2 and words:
            words[k] = rng.choice(ODD_WORDS)
        elif what == 3 and words:
            n = at(rng, words)
            words[k], words[n] = words[n], words[k]
        elif what == 4 and words:
            words[k] = rng.choice(BYTES)(rng, words[k])
        elif what == 5 and words:
            words[k] = re.sub(rb"[0-9]+", lambda m: b"%d" % max(0, int(m[0]) + rng.choice((-1, 1, 256))) if rng.random() < 0.5 and len(m[0]) < 20 else m[0], words[k])
        else:
            words += [rng.choice(ODD_WORDS)] * rng.choice((1, 1, 12))
    return words


def line_text(rng, text):
    """A text of lines and words with one to three changes."""
    for _ in range(rng.choice((1, 1, 2, 3))):
        lines = text.split(b"\n")
        k, n, what = at(rng, lines), at(rng, lines), rng.randrange(8)
        if what == 0:
            text = rng.choice(BYTES)(rng, text)
            continue
        if what == 1:
            del lines[k]
        elif what == 2:
            lines[k], lines[n] = lines[n], lines[k]
        elif what == 3:
            lines[k:k] = [lines[n]] * rng.choice((1, 1, 40))
        elif what == 4:
            lines[k] += rng.choice((b"\r", b" ", b" x", b"\t"))
        else:
            lines[k] = b" ".join(words_of(rng, lines[k].split(b" ")))
        text = b"\n".join(lines)
    return text
