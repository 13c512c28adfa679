# Gives om to the script that reads this file: the program that OM names, or else one that is proved and built here, for which the
# kit's `rt` is needed. Then `top` is the repository, `work` a folder that is removed at the end, in which the script goes on, and
# `om` the program.
top=$(cd "$(dirname "$0")/.." && pwd)
work=$(mktemp -d)
trap 'rm -rf "$work"' EXIT

if [ -n "${OM:-}" ]; then
    om=$(realpath "$OM")
else
    om=$top/crates/om_cli/out/om_cli
    cd "$top/crates/om_cli"
    rt run -- 2>&1 | tee "$work/log" | sed 's/^/   | /' >&2 || true
    grep -q '^usage 1$' "$work/log" || { echo "om could not be proved and built" >&2; exit 1; }
fi
cd "$work"
