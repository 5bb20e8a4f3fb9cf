#!/usr/bin/env python3
"""problems.py LIFECHECK FILE..: what is diagnosed in the files, a line each in the form that editors and CI systems read."""
import json, subprocess, sys

worst = 0
for file in sys.argv[2:]:
    done = subprocess.run([sys.argv[1], "check", file, "--json"], capture_output=True, text=True)
    for d in json.loads(done.stdout)["diagnostics"] if done.stdout else []:
        print(f"{file}:{d['line']}:{d['column']}: warning: {d['kind']}: {d['name']}: {d['cause']}")
    for line in done.stderr.splitlines():
        print(f"{file}:{line}" if line[0].isdigit() else f"{file}: {line}", file=sys.stderr)
    worst = max(worst, done.returncode)
sys.exit(worst)
