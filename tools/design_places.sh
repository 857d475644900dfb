#!/bin/sh
# Prints, for each point of the design pass, how many places of it the text of crates/*/src shows, with the pattern
# that finds them; with -l it lists the places, and a folder after it is read in place of this repository. What no pattern finds was found by reading, and stands in
# docs/DESIGN-PASS.md.
list=$1
cd "${2:-$(dirname "$0")/..}" || exit 1

places() {
  name=$1
  found=$2
  number=$(printf '%s' "$found" | grep -c .)
  printf '%-58s %d\n' "$name" "$number"
  if [ "$list" = -l ] && [ "$number" -gt 0 ]; then
    printf '%s\n' "$found" | sed 's/^/    /'
  fi
}

lines() { grep -nE "$1" crates/*/src/*.rt; }
whole() { perl -0777 -ne 'while (/'"$1"'/sg) { my ($t, $b) = ($&, $-[0]); my $n = () = substr($_, 0, $b) =~ /\n/g; $t =~ s/\s+/ /g; printf "%s:%d:%s\n", $ARGV, $n + 1, substr($t, 0, 90) }' crates/*/src/*.rt; }

places '1  a fault as Option<Question>' "$(lines '(->|Result<).*Option<Question>')"
places '1  an Err passed on by match, not by ?' "$(whole 'Err\((\w+)\)\s*=>\s*(return\s+Err\(|Err\()[^\n]*')"
places '1  a None passed on by let else, not by ?' "$(whole 'else\s*\{\s*return None;?\s*\}')"
places '1  a Some or Ok taken apart by match, and put together again' "$(whole '(Some|Ok)\((\w+)\)\s*=>\s*(Some|Ok)\([^\n]*')"
places '1  a None by match beside it' "$(whole 'None\s*=>\s*None')"
places '1  an enum of which a case holds a refusal or a question' "$(lines '^\s+[A-Z]\w*\((Question|Refusal|FileRefusal|Report)\),')"
places '1  a flag in a struct' "$(lines '^\s+(pub(\(crate\))? )?\w+: bool,')"
places '1  a number for a kind, a form or a shape' "$(lines 'fn \w+\([^)]*(digit|code|mark|a: u8, b: u8)\b[^)]*\)|-> (u8|u32)$|fn .*-> u8$')"
places '2  the refusal of a layer' "$(lines 'fn refused\(question')"
places '2  functions of one name in several files, their bodies apart' "$(grep -hoE 'fn [a-z_0-9]+' crates/*/src/*.rt | sort | uniq -c | awk '$1 > 1 {print $1, $3}')"
places '3  while' "$(lines '^\s*while ')"
places '3  an index added to by hand' "$(lines '(\+= 1;|= \w+\.(saturating|wrapping)_add\(1\))')"
places '3  enumerate, and the index used on a second list' "$(whole 'for \((\w+), \w+\) in [^\n]*enumerate\(\) \{[^}]*?\[\1\][^\n]*')"
places '3  for over a range, with an index into a list' "$(lines 'for \w+ in [0-9a-z_]+\.\.')"
places '4  a conversion by as' "$(lines '\bas (u8|u16|u32|usize)\b')"
places '4  equality of two fields by hand' "$(lines '\.\w+ == \w+\.\w+ &&|\.\w+ != \w+\.\w+ \|\|')"
places '4  a copy by hand' "$(lines 'fn copied')"
places '4  a conversion with a name of its own' "$(lines 'fn (number|mark|of_mark|kind_of|form_of|decision_of|end_of|node_of|entry_of)\b')"
places '5  requires of several facts in one clause' "$(lines 'requires.*\{.* × ')"
places '5  functions of more than four parameters' "$(whole 'fn \w+(<[^>]*>)?\(\s*([^(){}]*,\s*){4,}[^(){},]+,?\s*\)\s*(->|\n|\{)')"
places '5  Small in a clause' "$(lines '(requires|ensures).*Small')"
places '5  a bound of the length of nodes or depths in a clause' "$(lines 'requires.*(65535|65536|8196|4096)')"
places '6  a table with its count beside it' "$(lines 'count: usize')"
places '6  a stack with its top beside it' "$(lines '(top|bound|depth): usize|let mut top')"
places '6  a fixed array' "$(lines '= \[[^]]*; [A-Z0-9_]+\];|\[Entry; |\[0; ')"
places '7  an enum that says which step or call to make' "$(lines '^(pub )?enum (Call|Task|Case|Command|Request|HostData|Under)\b')"
