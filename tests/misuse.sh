#!/usr/bin/env bash
# The types turn down two misuses: judging a sheet in the bay, and fitting a need to a sheet on the road.
# A small program is tried in a temporary copy, as it should be and with each misuse. `rt try` runs the first and
# refuses the others, for the missing method and for nothing else.
set -u
root=$(cd "$(dirname "$0")/.." && pwd)
crates="needs weights clutters readings algebras totals inclusion_exclusion brackets sheets"
copy=$(mktemp -d)
trap 'rm -rf "$copy"' EXIT
mkdir -p "$copy/crates/misuse/src"
for crate in $crates; do
    mkdir "$copy/crates/$crate"
    cp -r "$root/crates/$crate/src" "$root/crates/$crate/specs" "$copy/crates/$crate/"
    grep "^$crate:" "$root/crates.txt" >> "$copy/crates.txt"
done
echo "misuse: needs sheets anyhow" >> "$copy/crates.txt"
cd "$copy/crates/misuse" || exit 1

program() {
    cat <<'PROGRAM'
// A sheet is fitted in the bay and judged on the road: the control of the misuse check.
use sheets::BaySheet;

fn main(rt: HostRuntime) -> anyhow::Result<()> {
    let mut places = [0u16; 2];
    let mut bay = BaySheet::open(&mut places);
    let fitted = bay.fit(1).is_ok();
    // in the bay
    let road = bay.put_out();
    // on the road
    let judged = road.judge(1, 0).is_ok();
    println!(rt; "fitted {fitted} judged {judged}")?;
    Ok(())
}
PROGRAM
}

fail() {
    echo "misuse check FAILED: $1"
    cat try.log
    exit 1
}

try() { # the program with the line $1 in the place of the comment $2
    program | sed "s|^    // $2\$|    $1|" > src/main.rt
    rt try > try.log 2>&1
}

refused() { # $1: the misuse, $2: its line, $3: the comment in whose place it stands, $4: the method, $5: the type
    try "$2" "$3" && fail "$1 is not refused"
    why=$(grep 'error\[' try.log)
    case "$why" in
        *"error[unknown-method]: no method named \`$4\` found for type \`$5<u16>\`"*) ;;
        *) fail "$1 is refused, but not for want of the method" ;;
    esac
    [ "$(echo "$why" | wc -l)" = 1 ] || fail "$1 is refused for more than the method"
    echo "misuse check: $1 is refused: no method \`$4\` for \`$5\`"
}

try "// in the bay" "in the bay" || fail "the control does not run"
grep -qx 'fitted true judged true' try.log || fail "the control does not print what it should"
echo "misuse check: the control runs"
refused "judging a sheet in the bay" "let _ = bay.judge(1, 0);" "in the bay" judge BaySheet
refused "fitting a need to a sheet on the road" "let _ = road.fit(2);" "on the road" fit RoadSheet
