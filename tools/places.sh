#!/bin/sh
# Lists what docs/DESIGN-PASS.md counts in src/, point by point: tools/places.sh [FOLDER], FOLDER being the top of a checkout.
# Each line that is printed is a candidate; the page says which of them are places.
cd "${1:-.}" || exit 1
set -- crates/*/src

list() { # POINT PATTERN
    echo "== $1"
    grep -rnE -e "$2" crates/*/src | sed 's|^crates/||; s|/src/|/|; s|: *|: |2'
}

list '1 enums' '^ *(pub(\(crate\))? )?enum '
list '1 an option of a fault as an answer' '-> Option<[A-Za-z]*Fault>'
list '1 zeros that stand for none, numbers for answers' 'number: 0 }$|agents: 0,|(None|Count|Size|Letter) => 0|^ +0$|REFUSED: |fn refused|fn number\(|fn cause\('
echo '== 2 names that functions share'
grep -rhoE '\bfn [a-z_]+' crates/*/src | sort | uniq -cd
echo '== 2 names that types and constants share, or values that constants share'
grep -rhoE '\b(struct|enum|trait|const) [A-Za-z_]+' crates/*/src | sort | uniq -cd
grep -rhE '^(pub(\(crate\))? )?const [A-Z_]+: [a-z0-9]+ = [0-9_]+;' crates/*/src | sed 's/.*= //' | sort | uniq -cd
list '3 loops' '^ *(for|while|loop)\b'
list '3 counters' '[a-z_]+ \+= (1|count);'
list '3 bounds by hand' '< [a-z_.]+\.len\(\)( |$)|<= [a-z_.]+\.len\(\)|\[[a-z_]+ - 1\]'
list '4 numbers compared in place of what they number' '\.number (==|<=|<|!=) |\.kind == '
list '4 conversions and printing by hand' 'fn (of|is|with_number|[a-z_]+_(in|by|letter|name)|put[a-z_]*|number|cause|layer|word|line)\('
list '5 how many agents and places, as two parameters' 'agents: u16,'
list '5 room that a buffer keeps, in clauses' '(ensures|requires) [a-z_]* ?\{.*vec_capacity'
list '5 place, parent and took number, as three' 'parent: (u16|usize), took: u16'
list '6 lists, and what lies beside them' '^ +(pub )?[a-z_]+: (&.a )?(Vec<|\[|&.a \[)'
list '7 functions as values' 'dyn |\bfn\(|Fn\(|FnMut|FnOnce'
