#!/usr/bin/env python3
"""Times `lifecheck check` on generated files, beside `clang++ -fsyntax-only` and `cppcheck` on the same files in the same run.

usage: bench/check.py [LIFECHECK]     (default: crates/lifecheck/out/lifecheck, which `rt run` and `rt ci` leave)

For each file: the least time of several runs of each program, in milliseconds, and how many times as long lifecheck
takes. Only these ratios carry over to another machine. clang++ stops at its first error. What isn't installed is left out.
"""
import os
import shutil
import tempfile
from functools import partial

from timing import least_time, program_to_time

RUNS = 7
FILE_LIMIT = 1_048_576


def comment_file():
    """One comment that fills a file of the largest size, and an empty main behind it."""
    tail = b"*/int main() { return 0; }"
    return b"/*" + b"x" * (FILE_LIMIT - 2 - len(tail)) + tail


def names_file():
    """Usual tokens up to the largest size: the file isn't of the language, which shows at its end alone."""
    line = b"  int value = other; { value = 12345; }\n"
    head = b"int main() {\n"
    return head + line * ((FILE_LIMIT - len(head)) // len(line))


def blocks_file():
    """Empty blocks up to the largest size."""
    head, tail = b"int main() { ", b"return 0; }"
    return head + b"{}" * ((FILE_LIMIT - len(head) - len(tail)) // 2) + tail


def usual_file():
    """Usual functions of the whole grammar up to the largest size, with what they include, so that clang++ takes them whole: all of it is
    parsed and typed, and they are too many."""
    head = "#include <cassert>\n#include <string>\n#include <vector>\n"
    function = """
[[life::ret(values)]] const int* largest{n}(const std::vector<int>& values, long limit) {{
  const int* best = nullptr;
  for (const int& value : values) {{
    if (value < limit && (!best || *best < value)) {{
      best = &value;  // the largest so far
    }} else if (value == {n}) {{
      continue;
    }}
  }}
  std::string text = std::string("largest") + "of";
  for (int i = 0; i < 10; ++i) {{
    text += 'x';
    assert(text.size() > 0);
  }}
  return best;
}}
"""
    text, number = head, 0
    while len(text) + len(function) < FILE_LIMIT - 10:
        text += function.format(n=number)
        number += 1
    return text.encode()


def limits_file():
    """250 variables and some 1,000 points, each pointer used twice."""
    lines = ["int main() {"]
    lines += [f"  int x{n} = {n};" for n in range(125)]
    lines += [f"  int* p{n} = &x{n};" for n in range(125)]
    lines += [f"  *p{n} = x{(n * 7) % 125};" for n in range(125)]
    lines += [f"  x{n} = *p{(n * 11) % 125};" for n in range(122)]
    lines += ["  return 0;", "}"]
    return "\n".join(lines).encode() + b"\n"


def faults_file():
    """The same size, where each use is a diagnostic."""
    lines = ["int main() {"]
    lines += [f"  int* p{n};" for n in range(250)]
    lines += ["  {", "    int x = 1;"]
    lines += [f"    p{n} = &x;" for n in range(0, 250, 2)]
    lines += ["  }"]
    lines += [f"  *p{n} = 3;" for n in range(250)]
    lines += ["  return 0;", "}"]
    return "\n".join(lines).encode() + b"\n"


def functions_file(count):
    """So many small functions, each with a loop, a branch and a pointer, and each calls the one before."""
    lines = ["int f0(int n) { return n; }"]
    for n in range(1, count):
        lines += [
            f"int f{n}(int n) {{",
            "  int best = 0;",
            "  int* p = nullptr;",
            "  for (int i = 0; i < n; ++i) {",
            f"    if (i % 3 == 1) {{ p = &best; }} else if (p != nullptr && *p < i) {{ *p = f{n - 1}(i); }}",
            "  }",
            "  return best;",
            "}",
        ]
    lines += [f"int main() {{ return f{count - 1}(3); }}"]
    return "\n".join(lines).encode() + b"\n"


def usual_functions_file(groups):
    """Three usual functions a group, over vectors, strings, views and what one of them gives back, with what they include."""
    text = "#include <iostream>\n#include <string>\n#include <string_view>\n#include <vector>\n"
    group = """
[[life::ret(values, null)]] const int* largest{n}(const std::vector<int>& values, int limit) {{
  const int* best = nullptr;
  for (const int& value : values) {{
    if (value < limit && (!best || *best < value)) {{
      best = &value;  // the largest so far
    }}
  }}
  return best;
}}

std::size_t words{n}(std::string_view text) {{
  std::size_t count = 0;
  bool inside = false;
  for (char c : text) {{
    if (c == ' ') {{
      inside = false;
    }} else if (!inside) {{
      inside = true;
      ++count;
    }}
  }}
  return count;
}}

int collect{n}(std::vector<int>& values, const std::string& name) {{
  std::string text = name + ", number " + '{digit}';
  for (std::size_t i = 0; i < words{n}(text); ++i) {{
    values.push_back(i * {n});
  }}
  const int* best = largest{n}(values, 1000);
  if (best != nullptr) {{
    std::cout << text << ": " << *best << std::endl;
    return *best;
  }}
  return 0;
}}
"""
    text += "".join(group.format(n=n, digit=n % 10) for n in range(groups))
    return text.encode() + b"""
int main() {
  std::vector<int> values;
  return collect0(values, "a name");
}
"""


def moving_file(pointers, objects):
    """Pointers to so many objects in a loop, each of which takes what the next one pointed to: their sets grow turn by turn."""
    lines = ["int main() {"]
    lines += [f"  int x{n} = {n};" for n in range(objects)]
    lines += [f"  int* p{n} = &x{n % objects};" for n in range(pointers)]
    lines += ["  while (x0 < 10) {"]
    lines += [f"    p{n} = p{(n + 1) % pointers};" for n in range(pointers)]
    lines += ["  }", "  return 0;", "}"]
    return "\n".join(lines).encode() + b"\n"


def dense_file(pointers, objects, turns):
    """Pointers in a chain, objects in a loop, and so many ways on to its next turn: each end of each object is a reason of its own, and
    comes to each pointer."""
    lines = ["int main() {"]
    lines += [f"  int* p{n} = nullptr;" for n in range(pointers)]
    lines += ["  while (life::input()) {"]
    lines += [f"    int x{n} = 0;" for n in range(objects)]
    lines += [f"    if (life::input()) {{ p0 = &x{n}; }}" for n in range(objects)]
    lines += [f"    p{n} = p{n - 1};" for n in range(pointers - 1, 0, -1)]
    lines += [f"    if (life::input()) {{ p0 = p{pointers - 1}; }}"]
    lines += ["    if (life::input()) { continue; }"] * turns
    lines += ["  }", "  return 0;", "}"]
    return "\n".join(lines).encode() + b"\n"


def calls_file(arguments, places, calls):
    """So many calls that hand over as many pointers to strings, each of which may point to so many."""
    parameters = ", ".join(f"std::string* a{n}" for n in range(arguments))
    lines = ["#include <string>", f"void take({parameters}) {{ return; }}", "int main() {", "  int choice = 0;"]
    lines += [f"  std::string x{n};" for n in range(arguments * places)]
    for n in range(arguments):
        lines += [f"  std::string* p{n} = &x{n * places};"]
        lines += [f"  if (choice == {k}) {{ p{n} = &x{n * places + k}; }}" for k in range(1, places)]
    for call in range(calls):
        handed = ", ".join(f"p{(n + call) % arguments}" for n in range(arguments))
        lines += [f"  take({handed});"]
    lines += ["  return 0;", "}"]
    return "\n".join(lines).encode() + b"\n"


FILES = [
    ("200 small functions", partial(functions_file, 200)),
    ("1,000 small functions", partial(functions_file, 1000)),
    ("1,000 usual functions", partial(usual_functions_file, 333)),
    ("one comment, 1 MiB", comment_file),
    ("tokens, 1 MiB", names_file),
    ("usual code, 1 MiB", usual_file),
    ("empty blocks, 1 MiB", blocks_file),
    ("250 variables, 1,000 points", limits_file),
    ("250 diagnostics", faults_file),
    ("100 calls of 8 pointers", partial(calls_file, 8, 4, 100)),
    ("100 calls of 32 pointers", partial(calls_file, 32, 4, 100)),
    ("60 pointers that move on", partial(moving_file, 60, 60)),
    ("250 pointers, 100 objects", partial(moving_file, 250, 100)),
    ("60 pointers, 450 reasons", partial(dense_file, 60, 15, 30)),
    ("120 pointers, 1,500 reasons", partial(dense_file, 120, 50, 30)),
    ("250 pointers, 1,760 reasons", partial(dense_file, 250, 44, 40)),
]

# What is timed beside lifecheck, with the words before the file.
OTHERS = [
    ("clang++", ["-std=c++17", "-fsyntax-only", "-ferror-limit=1"]),
    ("cppcheck", ["--quiet", "--std=c++17"]),
]


def main():
    program = program_to_time()
    others = [[path, *words] for name, words in OTHERS if (path := shutil.which(name))]
    heads = "".join(f" {os.path.basename(words[0]):>12} {'ratio':>7}" for words in others)
    print(f"{'file':30} {'bytes':>9} {'status':>6} {'lifecheck':>12}{heads}")
    with tempfile.TemporaryDirectory() as folder:
        for name, make in FILES:
            path = os.path.join(folder, "file.cpp")
            text = make()
            with open(path, "wb") as handle:
                handle.write(text)
            ours, status = least_time([program, "check", path], RUNS)
            row = f"{name:30} {len(text):9} {status!s:>6} {ours * 1000:9.1f} ms"
            for words in others:
                theirs, _ = least_time(words + [path], RUNS)
                row += f" {theirs * 1000:9.1f} ms {ours / theirs:7.2f}"
            print(row)


if __name__ == "__main__":
    main()
