#!/usr/bin/env python3
"""Measures how many bytes per second `lex` reads, beside a lexer written in C.

Usage: bench/lexer.py, at the top of the repository. It builds both in a folder of its own, and prints a table.
"""
import pathlib
import shutil
import subprocess
import tempfile

from building import EACH_SOURCE, TOP, rattle_program, run

MIB = 1 << 20
ROUNDS = 100

MAIN = EACH_SOURCE + """        let start = Instant::now(&rt)?;
        let mut read = 0usize;
        for _ in 0..ROUNDS {
            read = cxx_lexer::lex(rt.alloc(), source.as_slice()).map_or(0, |tokens| tokens.len());
        }
        println!(rt; "{} {read}", start.elapsed(&rt)?.as_micros())?;
    }
    Ok(())
}

const ROUNDS: usize = %d;
""" % ROUNDS

PEER = r"""
#include <ctype.h>
#include <stdio.h>
#include <stdlib.h>
#include <string.h>
#include <time.h>

struct token { int kind; unsigned place; char *text; size_t length; long value; };
static const char *WORDS[] = { %(words)s };
static const char *MARKS[] = { %(marks)s };
enum { WORD_COUNT = sizeof WORDS / sizeof *WORDS, MARK_COUNT = sizeof MARKS / sizeof *MARKS };

static size_t lex(const char *s, size_t n, struct token **out) {
    size_t count = 0, room = 0;
    struct token *tokens = 0;
    for (size_t i = 0; i < n;) {
        unsigned char c = s[i];
        if (c == ' ' || (c >= 9 && c <= 13)) { i++; continue; }
        if (c == '/' && i + 1 < n && s[i + 1] == '/') { while (i < n && s[i] != '\n') i++; continue; }
        if (c == '/' && i + 1 < n && s[i + 1] == '*') {
            i += 2;
            while (i + 1 < n && !(s[i] == '*' && s[i + 1] == '/')) i++;
            i += 2;
            continue;
        }
        struct token t = { 0, (unsigned)i, 0, 0, 0 };
        size_t start = i;
        if (isalnum(c) || c == '_') {
            while (i < n && (isalnum((unsigned char)s[i]) || s[i] == '_')) i++;
            t.length = i - start;
            if (isdigit(c)) {
                t.kind = 1;
                for (size_t k = start; k < i; k++) t.value = t.value * 10 + (s[k] - '0');
            } else {
                for (int k = 0; k < WORD_COUNT && !t.kind; k++)
                    if (strlen(WORDS[k]) == t.length && !memcmp(WORDS[k], s + start, t.length)) t.kind = 100 + k;
                if (!t.kind) { t.text = malloc(t.length); memcpy(t.text, s + start, t.length); }
            }
        } else {
            int k = 0;
            while (k < MARK_COUNT && strncmp(MARKS[k], s + i, strlen(MARKS[k]))) k++;
            if (k == MARK_COUNT) return 0;
            t.kind = 200 + k;
            i += strlen(MARKS[k]);
        }
        if (count == room) tokens = realloc(tokens, (room = room ? 2 * room : 64) * sizeof *tokens);
        tokens[count++] = t;
    }
    *out = tokens;
    return count;
}

int main(int argc, char **argv) {
    for (int a = 1; a < argc; a++) {
        FILE *f = fopen(argv[a], "rb");
        static char s[1 << 21];
        size_t n = fread(s, 1, sizeof s - 8, f), count = 0;
        struct timespec x, y;
        clock_gettime(CLOCK_MONOTONIC, &x);
        for (int r = 0; r < %(rounds)d; r++) {
            struct token *tokens;
            count = lex(s, n, &tokens);
            for (size_t i = 0; i < count; i++) free(tokens[i].text);
            free(tokens);
        }
        clock_gettime(CLOCK_MONOTONIC, &y);
        printf("%%ld %%zu\n", (y.tv_sec - x.tv_sec) * 1000000L + (y.tv_nsec - x.tv_nsec) / 1000, count);
    }
}
"""


def filled(line, per_line, limit=65_000):
    """Repeats a line up to the limit of tokens, and fills the rest of 1 MiB with comments."""
    text = line * min(limit // per_line, MIB // len(line))
    rest = MIB - len(text)
    comment = "    // what stands here is for the reader alone\n"
    return text + comment * (rest // len(comment))


def sources():
    code = "    if (count_of_items < 4711) { total = total + price_of(item, 12); }  // adds what the item costs\n"
    yield "code with comments", filled(code, 23)
    yield "marks and short names", "a=b+c*(d-e);" * (65_000 // 12)
    yield "one long comment", "/*" + "x" * (MIB - 4) + "*/"
    yield "blanks", " " * MIB


def spellings(path):
    import re
    return re.findall(r'=> "([^"]+)",', (TOP / path).read_text())


def main():
    work = pathlib.Path(tempfile.mkdtemp())
    try:
        files = []
        for number, (name, text) in enumerate(sources()):
            path = work / f"source{number}"
            path.write_text(text)
            files.append((name, path))
        words, marks = spellings("crates/cxx_ast/src/keyword.rt"), spellings("crates/cxx_ast/src/mark.rt")
        quoted = lambda texts: ", ".join(f'"{text}"' for text in texts)
        (work / "peer.c").write_text(PEER % {"words": quoted(words), "marks": quoted(marks), "rounds": ROUNDS})
        subprocess.run(["cc", "-O2", "-o", work / "peer", work / "peer.c"], check=True)
        program = rattle_program(work, "lex_speed", MAIN, ["cxx_ast", "cxx_lexer"])
        paths = [str(path) for _, path in files]
        ours = run(["rt", "run", "--", *paths], cwd=program)
        peers = run([work / "peer", *paths])
        print(f"{'source':24}{'bytes':>9}{'tokens':>8}{'lex MB/s':>10}{'C MB/s':>10}")
        for (name, path), our, peer in zip(files, ours.splitlines()[-len(files):], peers.splitlines()):
            size = path.stat().st_size
            speed = [size * ROUNDS / int(line.split()[0]) for line in (our, peer)]
            assert our.split()[1] == peer.split()[1], (name, our, peer)
            print(f"{name:24}{size:9}{our.split()[1]:>8}{speed[0]:10.0f}{speed[1]:10.0f}")
    finally:
        shutil.rmtree(work)


main()
