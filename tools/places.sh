#!/usr/bin/env bash
# Prints the places in src/ that docs/DESIGN-PASS.md counts, point by point. Give the top of a checkout, or run it there.
cd "${1:-.}" || exit 1
say() { # title, pattern
  local found
  found=$(grep -nE "$2" crates/*/src/*.rt)
  echo "== $1: $(printf '%s' "$found" | grep -c .)"
  printf '%s\n' "$found" | sed '/^$/d; s/^/   /'
}
say "1a numbers for kinds, in fields and constants" '^\s*(pub )?(kind|home|op|number): u8|^pub const [A-Z_]+: u8'
say "1b a function that changes something and answers a flag" 'fn .*&mut .*-> bool'
say "1c a link whose 0 says none" '^\s*pub (first|next): u16'
say "1d an Option whose Some is the fault" 'fn (bad_[a-z]+|not_once|too_deep|unlisted)\b.*-> Option'
say "2a functions that differ in a type, a size or a constant" 'fn (u16_at|u32_at|i64_at|in_file|in_check|is_type|is_expr|is_statement|bad_link|not_once|unlisted|bad_children|bad_text|kind_in|put|put_all|store|store_all|passed_up|texted|same|has_slot|fields_of|word_of)\b'
say "2b types that differ in a type" '^pub struct (Node|Shape)\b'
say "2c a constant in several crates" '^const ROOM'
say "2d types that differ in a count" '^\s*(One|Two|Three|Four)\('
say "3a loops over the numbers of a range" 'for [a-z_]+ in [^{]*\.\.'
say "3b loops by while" '^\s*while '
say "4a types whose equality is not derived" '^#\[derive\((Clone, Copy|Clone, Copy, Debug)\)\]'
say "4b conversion, equality, order and printing by hand" 'fn (of|is|same|number|digit|deeper|verdict_line|summary_line|is_numeric|is_bool|is_text)\b'
echo "== 5a what three contracts or more ask for"
grep -hE '^\s*requires' crates/*/src/*.rt | sed -E 's/^\s*requires [a-z]* ?//; s/\.(now|old)//g; s/(notes|marks|depths|counts|seen|full)/AREA/g; s/self\.over|self|s\b/S/g; s/script/S/g' | sort | uniq -c | sort -rn | awk '$1>=3'
say "5b parameters that travel together" 'fn .*(script: Script, names: &\[Name\]|notes: &mut \[Note\], r: u16|s: Opened, r: u16)|^\s*notes: &mut \[Note\],'
say "6a a length beside a buffer" '(pub\(super\) |^\s*)(len|top): usize,|fn (fill|unhex|file_of)\b.*usize>'
say "6b a lent slice that must have one length" '(marks|depths|counts|seen|full): &(mut )?\[(bool|u8)\]'
say "7 a step chosen by hand" 'if let Some\((at|means)\)'
echo "== 8 lines of proofs, crate by crate"
for c in crates/*; do n=$(find "$c/proofs" -name '*.antt' 2>/dev/null | xargs -r cat | wc -l); echo "   $(basename "$c") $n"; done
