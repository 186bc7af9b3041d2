#!/bin/sh
# bench/documents.sh [PROGRAM]: tests that documents say what the sources say, in seconds. With PROGRAM (.try/cixorradde
# or a proved one) also that help.txt is its text, and each message and row of bench/messages.py, and
# where ProGuard is installed that what it writes of two examples is taken. Ends with 1 where
# something isn't so.
cd "$(dirname "$0")/.." || exit 70
status=0

try() {
    "$@" || { echo "documents.sh: $* failed" >&2; status=1; }
}

# Links between documents lead to a file, and to a heading of it.
links() {
    python3 - <<'LINKS'
import re, sys
from pathlib import Path

def anchors(path):
    heads = re.findall(r"^#+ (.*)$", path.read_text(), re.M)
    return {re.sub(r"[^\w\- ]", "", it.lower()).replace(" ", "-") for it in heads}

wrong = []
for page in [*Path(".").glob("*.md"), *Path("docs").glob("*.md"), *Path("examples").rglob("*.md")]:
    for target in re.findall(r"\]\(([^)\s]+)\)", re.sub(r"```.*?```", "", page.read_text(), flags=re.S)):
        name, _, anchor = target.partition("#")
        path = (page.parent / name) if name else page
        if "://" in target:
            continue
        if not path.exists() or (anchor and path.suffix == ".md" and anchor not in anchors(path)):
            wrong.append(f"{page}: {target} leads nowhere")
print("\n".join(wrong) or "links lead somewhere")
sys.exit(bool(wrong))
LINKS
}

try python3 bench/kinds.py
try python3 bench/theorem.py --check
try python3 bench/library.py --check
try python3 bench/definitions.py --check docs/PROMISES.md
try links
[ "$(wc -c <README.md)" -le 6000 ] || { echo "README.md has more than 6,000 bytes" >&2; status=1; }
python3 bench/man.py >/dev/null || status=1
if [ $# -gt 0 ]; then
    "$1" --help 2>/dev/null | cmp - bin/help.txt || status=1
    try python3 bench/messages.py "$1"
    if command -v proguard >/dev/null; then
        for example in app railway; do
            said=$(examples/proguard/check.sh "examples/$example/shrink.pro" "$1" 2>/dev/null)
            echo "what ProGuard wrote of $example: $said"
            [ "$said" = ok ] || status=1
        done
    fi
fi
exit $status
