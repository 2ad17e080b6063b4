"""Requests one after another, some of them damaged."""
from random import Random

PATHS = ["/", "/index", "/a%20b", "/x?q=1", "/long/way/home", "/%41+%42", "/bad%4", "/bad%zz", "/bad%x1", "/bad%", "no", "/?", "/a?b?c"]
HEADERS = ["Host: here", "host:here", "Accept: all", "X-Long-Name-Here: 1", "Agent:   me  ", "Empty:", "nonsense", "Accept: a value that is too long"]


def one(chance: Random) -> str:
    how = chance.choice(["GET", "GET", "GET", "HEAD", "POST", "POST", "PUT", "TRACE"])
    first = f"{how} {chance.choice(PATHS)} HTTP/{chance.choice(['1.1', '1.1', '1.1', '1.0', '2'])}"
    lines = [first if chance.randrange(20) else first[:chance.randrange(len(first))]]
    lines += ["Host: here"] if chance.randrange(8) else []
    lines += [chance.choice(HEADERS if chance.randrange(6) == 0 else HEADERS[:5]) for _ in range(chance.choice([0, 0, 1, 2, 3, 5, 6]))]
    body = "".join(chance.choice("abc xyz\n") for _ in range(chance.choice([0, 1, 5, 12, 40, 63, 64, 65])))
    if how in ("POST", "PUT") and chance.randrange(10) or chance.randrange(15) == 0:
        if chance.randrange(2):
            name = chance.choice(["Content-Length", "content-length"])
            lines.append(f"{name}: {len(body) if chance.randrange(12) else chance.choice(['x', '', '9x', len(body) + 3])}")
        else:
            lines.append("Transfer-Encoding: chunked")
            pieces, rest = "", body
            while rest:
                size = min(len(rest), chance.choice([1, 4, 10, 20, 26]))
                pieces += f"{size:x}{';x=1' if chance.randrange(6) == 0 else ''}\n{rest[:size]}\n"
                rest = rest[size:]
            body = pieces + ("0\n\n" if chance.randrange(10) else "g\n")
    else:
        body = ""
    end = "\r\n" if chance.randrange(3) == 0 else "\n"
    return end.join(lines) + end * 2 + body


def make(chance: Random) -> bytes:
    return "".join(one(chance) + "\n" * chance.randrange(2) for _ in range(chance.randint(1, 4))).encode("ascii")
