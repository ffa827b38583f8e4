"""Checks plans over a catalog from Python: check.py LIBRARY CATALOG PLAN.. prints a line for each plan, as `volcano check` does,
and below a refusal where it is. LIBRARY is libvolcano.so, which examples/embed/Makefile links from libvolcano.a."""
import ctypes as c
import sys


class Answer(c.Structure):
    """volcano_answer of volcano.h."""
    _fields_ = [("text", c.c_void_p), ("length", c.c_size_t), ("code_at", c.c_size_t), ("code_length", c.c_size_t),
                ("name_at", c.c_size_t), ("name_length", c.c_size_t), ("node", c.c_uint32), ("has_node", c.c_bool),
                ("is_total", c.c_bool), ("errors", c.c_uint8), ("more", c.c_void_p), ("more_length", c.c_size_t)]


class Catalog(c.Structure):
    """volcano_catalog of volcano.h."""
    _fields_ = [("session", c.c_void_p), ("is_open", c.c_bool)]


def said(answer, libc):
    """What a call wrote, as a text. It is freed."""
    texts = [c.string_at(at, length) if at else b"" for at, length in ((answer.text, answer.length), (answer.more, answer.more_length))]
    libc.free(c.c_void_p(answer.text))
    libc.free(c.c_void_p(answer.more))
    return b"".join(texts).decode()


def main(path, catalog_path, *plans):
    library, libc = c.CDLL(path), c.CDLL(None)
    catalog, worst = Catalog(), 0
    answer = Answer(errors=1)
    with open(catalog_path, "rb") as file:
        text = file.read()
    if library.volcano_catalog_open(text, c.c_size_t(len(text)), c.byref(catalog), c.byref(answer)):
        sys.exit(said(answer, libc))
    for plan in plans:
        with open(plan, "rb") as file:
            text = file.read()
        status = library.volcano_catalog_check(c.byref(catalog), text, c.c_size_t(len(text)), c.byref(answer))
        print(f"{plan}: {said(answer, libc)}", end="")
        worst = max(worst, status & 255)
    library.volcano_catalog_close(c.byref(catalog))
    return worst


if __name__ == "__main__":
    sys.exit(main(*sys.argv[1:]))
