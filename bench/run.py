#!/usr/bin/env python3
"""Times `lifecheck run` on generated files, beside `lifecheck check` on the same files in the same run.

usage: bench/run.py [LIFECHECK]     (default: crates/lifecheck/out/lifecheck, which `rt run` and `rt ci` leave)

For each file: the steps of its run, the least time of several checks and of several runs, in milliseconds, and what the
run took beside the check, in nanoseconds a step. Then for each of some programs that run for long: how many million steps
it takes, and a second, and how many times as long its run takes as what clang++ makes of it with `-O0 -fsanitize=address`.
"""
import os
import shutil
import subprocess
import tempfile

from timing import least_time, program_to_time

RUNS = 25


def empty_file():
    return "int main() { return 0; }\n"


def pointers_file():
    """Some 1,000 points: values that are read and written through a pointer."""
    lines = ["int main() {", "  int x = 1;", "  int* p = &x;"]
    lines += ["  *p = *p;"] * 505
    lines += ["  return *p;", "}"]
    return "\n".join(lines) + "\n"


def blocks_file():
    """Some 1,000 points: objects that come to life and end."""
    lines = ["int main() {"]
    lines += [f"  {{ int x{n} = {n}; }}" for n in range(250)]
    lines += ["  return 0;", "}"]
    return "\n".join(lines) + "\n"


def printing_file():
    """Some 1,000 points: a variable that is printed."""
    lines = ["int main() {", "  int x = 7;"]
    lines += ["  std::cout << x << x;"] * 250
    lines += ["  return x;", "}"]
    return "\n".join(lines) + "\n"


def loop_file():
    """Some ten million steps of a loop over ints."""
    return "int main() {\n  int s = 0;\n  for (int i = 0; i < 770000; ++i) { s = (s + i) % 1000; }\n  return s;\n}\n"


def calls_file():
    """Some ten million steps of calls: Fibonacci's numbers by recursion."""
    return "int fib(int n) { if (n < 2) { return n; } return fib(n - 1) + fib(n - 2); }\nint main() { return fib(26); }\n"


def deep_file():
    """9,999 calls, one in the other."""
    return "int down(int n) { if (n == 0) { return 0; } return down(n - 1); }\nint main() { return down(9997); }\n"


FILES = [
    ("empty main", empty_file, []),
    ("through a pointer", pointers_file, []),
    ("births and ends", blocks_file, []),
    ("printing", printing_file, []),
    ("a loop", loop_file, []),
    ("calls", calls_file, []),
    ("deep calls", deep_file, ["--depth", "10000"]),
]

MOST_STEPS = 1_000_000_000


def long_loop(turns):
    """A loop over an int."""
    return f"int main() {{\n  int s = 0;\n  for (int i = 0; i < {turns}; ++i) {{ s = (s + i) % 1000; }}\n  return s;\n}}\n"


def vector_loop(turns):
    """A loop over the elements of a vector, by their indices."""
    return f"""#include <vector>
int main() {{
  std::vector<int> v;
  for (int i = 0; i < 1000; ++i) {{ v.push_back(i * 7 % 1000); }}
  int s = 0;
  for (int turn = 0; turn < {turns}; ++turn) {{
    for (std::size_t i = 0; i < v.size(); ++i) {{ s = (s + v[i]) % 1000; }}
  }}
  return s;
}}
"""


def view_loop(turns):
    """A loop over the characters of a view."""
    return f"""#include <string>
#include <string_view>
int main() {{
  std::string s;
  for (int i = 0; i < 1000; ++i) {{ s += 'x'; }}
  std::string_view v = s;
  int n = 0;
  for (int turn = 0; turn < {turns}; ++turn) {{
    for (std::size_t i = 0; i < v.size(); ++i) {{ if (v[i] == 'x') {{ n = (n + 1) % 1000; }} }}
  }}
  return n;
}}
"""


def sorted_numbers(count):
    """So many numbers that are pushed, sorted by their indices, part by part, and added up."""
    return f"""#include <vector>
int main() {{
  std::vector<int> v;
  int x = 1;
  for (int n = 0; n < {count}; ++n) {{
    x = (x * 75 + 74) % 65537;
    v.push_back(x);
  }}
  std::vector<std::size_t> lows = {{0}};
  std::vector<std::size_t> highs = {{{count - 1}}};
  while (!lows.empty()) {{
    std::size_t low = lows.back();
    std::size_t high = highs.back();
    lows.pop_back();
    highs.pop_back();
    while (low < high) {{
      int pivot = v[low + (high - low) / 2];
      std::size_t i = low;
      std::size_t j = high;
      while (i <= j) {{
        while (v[i] < pivot) {{ ++i; }}
        while (v[j] > pivot) {{ --j; }}
        if (i <= j) {{
          int kept = v[i];
          v[i] = v[j];
          v[j] = kept;
          ++i;
          if (j == 0) {{ break; }}
          --j;
        }}
      }}
      lows.push_back(low);
      highs.push_back(j);
      low = i;
    }}
  }}
  long sum = 0;
  for (std::size_t n = 0; n < v.size(); n += {count // 100}) {{ sum += v[n]; }}
  return sum % 100;
}}
"""


# With how many turns or numbers each is timed, and with how few its steps are counted, where they grow in a line.
LONG = [
    ("100 million steps", long_loop, 7_150_000, 1000, []),
    ("the same of a vector", vector_loop, 6_250, 10, []),
    ("a view", view_loop, 600, 10, []),
    ("a million sorted", sorted_numbers, 1_000_000, None, ["--growth", "double", "--cells", "10000000"]),
]


def steps_by_line(program, path, make, turns, few, options):
    """The steps with so many turns, each of which takes as many: counted with few turns and with twice as many."""
    counts = []
    for some in (few, 2 * few):
        write(path, make(some))
        counts.append(steps_of(program, path, options))
    return counts[0] + (counts[1] - counts[0]) * (turns - few) // few


def write(path, text):
    with open(path, "w") as handle:
        handle.write(text)


def steps_of(program, path, options):
    """The least number of steps with which the run ends, by doubling and halving."""
    high = 1024
    while high < MOST_STEPS and stops(program, path, options, high):
        high *= 2
    low = 0 if high == 1024 else high // 2
    while low < high:
        middle = (low + high) // 2
        if stops(program, path, options, middle):
            low = middle + 1
        else:
            high = middle
    return low


def stops(program, path, options, steps):
    """Whether the run is still going on after so many steps."""
    words = [program, "run", path, "--steps", str(steps)] + options
    return subprocess.run(words, stdout=subprocess.DEVNULL, stderr=subprocess.DEVNULL).returncode == 7


def main():
    program = program_to_time()
    print(f"{'file':20} {'steps':>9} {'status':>6} {'check':>10} {'run':>10} {'a step':>10}")
    with tempfile.TemporaryDirectory() as folder:
        for name, make, options in FILES:
            path = os.path.join(folder, "file.cpp")
            write(path, make())
            steps = steps_of(program, path, options)
            check, _ = least_time([program, "check", path], RUNS)
            ran, status = least_time([program, "run", path, "--steps", str(MOST_STEPS)] + options, RUNS)
            step = (ran - check) * 1e9 / steps
            print(f"{name:20} {steps:9} {status:6} {check * 1000:7.2f} ms {ran * 1000:7.2f} ms {step:7.0f} ns")
        time_long(program, folder)


def time_long(program, folder):
    """Prints the table of the programs that run for long."""
    compiler = shutil.which("clang++")
    print(f"\n{'program':20} {'steps':>9} {'status':>6} {'run':>10} {'a second':>10} {'sanitized':>10} {'ratio':>7}")
    for name, make, turns, few, options in LONG:
        path = os.path.join(folder, "file.cpp")
        steps = few and steps_by_line(program, path, make, turns, few, options)
        write(path, make(turns))
        ran, status = least_time([program, "run", path, "--steps", str(MOST_STEPS)] + options, RUNS)
        a_second = steps and status is not None and steps / ran
        row = f"{name:20} {shown(steps):>7} M {status!s:>6} {ran:8.2f} s {shown(a_second):>8} M"
        if compiler:
            built = os.path.join(folder, "built")
            subprocess.run([compiler, "-std=c++17", "-O0", "-fsanitize=address", "-w", path, "-o", built], check=True)
            theirs, _ = least_time([built], RUNS)
            row += f" {theirs:8.2f} s {ran / theirs:7.1f}"
        print(row)


def shown(number):
    """In millions; or that it isn't known."""
    return f"{number / 1e6:.1f}" if number else "-"


if __name__ == "__main__":
    main()
