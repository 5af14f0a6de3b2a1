#!/usr/bin/env bash
# Prints the places in crates/*/src, below the folder given or this one, that docs/DESIGN-PASS.md counts: `design_places.sh [FOLDER]`.
# A search finds candidates; which of them stay, and why, the page says.
set -euo pipefail
cd "${1:-.}"
find_all() { grep -rnE "$1" crates/*/src --include='*.rt' || true; }
show() {
  local found
  found=$(find_all "$2")
  echo "## $1: $(printf '%s' "$found" | grep -c '' || true)"
  if [ -n "$found" ]; then printf '%s\n' "$found" | sed -E 's/:[[:space:]]+/: /'; fi
}
show '1a an arm that turns an Option or a Result by hand' '^\s*(Some|None|Ok|Err)(\([a-z_]*\))? => (Some|None|Ok|Err|true|false|unreachable)\b'
show '1b a tag or a flag beside values' '\b(kind: Kind|[a-z]+: bool,)'
show '1c a bool for whether it was done' 'fn (push|insert|add|put|enter|remove)\b.*-> bool'
show '2a constructors and views that several types have alike' 'fn (none|list|context_of|axiom_of|clause_of|element|link|told|made)\b'
show '2b a constant that stands in two crates' '(const|type) [A-Z_]*(CONCEPTS|CONCEPT_ROWS|HEAD_LIMIT|SIDE_LIMIT|LIST_LIMIT|SCRATCH[A-Z_]*)\b.*[=;]'
show '3a a for over a range' 'for [a-z_]+ in [^{]*\.\.'
show '3b a count raised by hand' '\b(count|n|end|i|len) (\+= 1|= put)'
show '3c a while' '\bwhile\b'
show '4a an impl that a derive could write' '^impl.*\b(PartialEq|Eq|PartialOrd|Ord|Clone|Copy|Debug|Default|Hash)\b.* for '
show '4b an order, an equality or a conversion by hand' 'fn (before|same|is_same|refusal|from_numbers|fmt)[(<]'
show '5a a range or a room stated of a value' '(ensures|requires).*(< (clause_limit|context_limit|role_codes|role_names)|≤ length out\.old|≤ 8|≤ N)'
show '5b parameters that travel together' '\b(v: u8, x: u16|v: u8,$|k: &\[u8\], m: &\[u8\]|k: &\[u8\],$|bytes: &\[u8\], n: u8|v: u8, a: u8)'
show '6 memory or an array with a length beside it' '(len|count): usize,|(n|start): usize,|, start: usize|out: &mut \[T\], n'
show '7 a switch on a kind or a flag' 'match form\.kind|if wanted|match self\.phase'
