#!/bin/sh
# tools/gate, with an `rt` and a `make` in front of the real ones that print and end as told. Prints one line if all is as expected.
set -eu
cd "$(dirname "$0")/.."
stand_ins=$(mktemp -d)
trap 'rm -rf "$stand_ins"' EXIT
cat > "$stand_ins/rt" <<'END'
#!/bin/sh
printf "$RT_SAYS"
[ "$RT_ENDS" != killed ] || kill -9 $$
exit "$RT_ENDS"
END
cat > "$stand_ins/make" <<'END'
#!/bin/sh
echo "make: $*"
exit "$MAKE_ENDS"
END
chmod +x "$stand_ins/rt" "$stand_ins/make"

tried=0
# What rt says, its status, the status of make; the status that the gate has to end with, and a pattern of its last line.
gate() {
    status=0
    out=$(PATH="$stand_ins:$PATH" RT_SAYS=$1 RT_ENDS=$2 MAKE_ENDS=$3 tools/gate 2>&1) || status=$?
    last=$(printf '%s\n' "$out" | tail -n 1)
    case "$status: $last" in
    "$4: "$5) ;;
    *)
        echo "gate: rt says '$1' and ends with $2, make ends with $3: status and last line are '$status: $last', expected '$4: $5'"
        exit 1
        ;;
    esac
    tried=$((tried + 1))
}
gate 'rt: ok\n5 passed, 0 failed\n' 0 0 0 '5 passed, 0 failed'
gate 'rt: ok\n5 passed, 0 failed\n' 1 0 1 '5 passed, 1 failed'
gate 'rt: ok\n5 passed, 0 failed\n' 3 0 1 '5 passed, 1 failed'
gate 'rt: ok\n5 passed, 0 failed\n' killed 0 1 '* passed, 1 failed'
gate 'rt: ok\n5 passed, 0 failed\n' 0 2 1 '5 passed, 1 failed'
gate 'rt: FAILED\n4 passed, 2 failed\n' 1 0 1 '4 passed, 2 failed'
gate 'rt: FAILED\n4 passed, 2 failed\n' 0 0 1 '4 passed, 2 failed'
gate 'rt: a crate says 5 passed, 0 failed\n' 0 0 1 '0 passed, 1 failed'
gate '5 passed, 0 failed\nrt: and more\n' 0 0 1 '0 passed, 1 failed'
gate '0 passed, 0 failed\n' 0 0 1 '0 passed, 1 failed'
gate 'rt: ok (must-fail edits: 7 refused, 1 bad)\n5 passed, 0 failed\n' 0 0 1 '5 passed, 1 failed'
gate 'rt: ok (must-fail edits: 7 refused, 0 bad)\n5 passed, 0 failed\n' 0 0 0 '5 passed, 0 failed'
gate '' 2 0 1 '0 passed, 1 failed'
gate '' 0 0 1 '0 passed, 1 failed'
echo "gate: $tried endings as expected"
