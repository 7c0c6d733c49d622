#!/bin/sh
# Builds the oracle and tests it. T's sources come from PYHYEON_SRC, or from build.rs's default.
# Every step names what it expects; the first that fails ends the script.
set -eu
cd "$(dirname "$0")"
scratch=$(mktemp -d)
trap 'rm -rf "$scratch"' EXIT

say() { printf '%s\n' "-- $*"; }
fail() { printf '%s\n' "FAILED: $*" >&2; exit 1; }

# The stored list and its seed. The list stands with the program that replays it.
stored=../crates/replay/data
seed=1125

say "it builds"
cargo build --release --quiet
oracle=target/release/oracle

say "an altered T fails the build"
source=${PYHYEON_SRC:-../../pyhyeon}
for path in semantic/typecheck.rs parser/ast.rs vm/type_def.rs builtins.rs; do
    rm -rf "$scratch/altered"
    mkdir -p "$scratch/altered/src/semantic" "$scratch/altered/src/parser" "$scratch/altered/src/vm"
    for file in semantic/typecheck.rs parser/ast.rs vm/type_def.rs builtins.rs; do
        cat "$source/src/$file" > "$scratch/altered/src/$file"
    done
    printf '\n' >> "$scratch/altered/src/$path"
    if PYHYEON_SRC="$scratch/altered" CARGO_TARGET_DIR="$scratch/target" cargo build --release --quiet 2> "$scratch/build.txt"; then
        fail "it builds with another $path"
    fi
    grep -q "is not the text this oracle was written for" "$scratch/build.txt" || fail "the build fails for another reason: $path"
done

say "an edit that does not change exactly its line fails the build"
# what is altered in build.rs, and how the build then fails
while IFS='|' read -r alteration why; do
    rm -rf "$scratch/oracle"
    mkdir "$scratch/oracle"
    cp -r Cargo.toml Cargo.lock src "$scratch/oracle"
    sed "$alteration" build.rs > "$scratch/oracle/build.rs"
    if cmp -s build.rs "$scratch/oracle/build.rs"; then fail "nothing altered by $alteration"; fi
    if PYHYEON_SRC="$(cd "$source" && pwd)" CARGO_TARGET_DIR="$scratch/target" \
        cargo build --release --quiet --manifest-path "$scratch/oracle/Cargo.toml" 2> "$scratch/build.txt"; then
        fail "it builds with $alteration"
    fi
    grep -q "$why" "$scratch/build.txt" || { cat "$scratch/build.txt"; fail "the build fails for another reason: $alteration"; }
done <<'ALTERATIONS'
s/line: 269/line: 270/|the edit meant for line 270 fits at line 269
s/for var in all_assigned {/for war in all_assigned {/|fits 0 places, not 1
s/old: "            tenv.push();.n"/old: "            Ok(())\\n"/|places, not 1
s/new: "            for var in super::in_byte_order(all_assigned) {/new: "\\n            for var in super::in_byte_order(all_assigned) {/|the edit meant for line 197 fits at line 198
s/new: "            for var in super::in_byte_order(all_assigned) {/new: "            for var in all_assigned {/|the edit at line 184 changes 0 lines, not 1
s/line: 218/line: 219/|the edit meant for line 219 fits at line 218
s/new: "                for s in then_block {.n                    tc_stmt(s, e, ctx, current_fn_return, in_loop)?;/new: "                for s in then_block {\\n                    let _ = tc_stmt(s, e, ctx, current_fn_return, in_loop);/|the edit at line 141 changes 2 lines, not 3
ALTERATIONS

say "the runs of document 01"
# Parted by lines of three dashes, in document 01's order; then its printed example.
cat > "$scratch/runs.txt" <<'RUNS'
---
x = 1
---
x = 1
x = "a"
---
if u: pass
---
if not u: pass
---
break
---
if True: break
---
for i in [1]: 1 + "a"
---
while True: 1 + "a"
---
d = {1: 1, "a": 1, "b": 1}
---
x = 1
if True:
  def f(x):
    x = "s"
    1 + "a"
---
p = (1, [2.0])
q = [2.0]
---
1 + "a"
RUNS
cat > "$scratch/wanted.txt" <<'WANTED'
accepted 0 0 40
accepted 1 0 53
refused 25 5 6 7 TypeError: cannot assign value of type String to variable of type Int @0,1
refused 36 2 3 4 TypeError: condition must be Bool
accepted 0 0 40
refused 20 1 0 5 SyntaxError: 'break' outside loop
accepted 0 0 40
refused 29 6 14 21 TypeError: unsupported operand types for +: Int and String
accepted 0 0 40
accepted 1 1 65
accepted 1 0 53
accepted 2 2 98
refused 29 2 0 7 TypeError: unsupported operand types for +: Int and String
WANTED
$oracle encode < "$scratch/runs.txt" > "$scratch/runs.batch"
$oracle judge < "$scratch/runs.batch" | sed 's/ #[0-9a-f]*$//' | cmp - "$scratch/wanted.txt" || fail "the runs end otherwise"
# Document 02's strict: runs 7, 9 and 11 are refused where the others end as before.
cat > "$scratch/strict.txt" <<'STRICT'
7 refused 20 4 9 14 SyntaxError: 'break' outside loop
9 refused 29 5 12 19 TypeError: unsupported operand types for +: Int and String
11 refused 29 14 43 50 TypeError: unsupported operand types for +: Int and String
STRICT
$oracle judge --strict < "$scratch/runs.batch" | sed 's/ #[0-9a-f]*$//' > "$scratch/said.txt"
awk 'NR == FNR { wanted[FNR] = $0; next } $0 != wanted[FNR] { print FNR " " $0 }' "$scratch/wanted.txt" "$scratch/said.txt" | cmp - "$scratch/strict.txt" || fail "the runs end otherwise in strict"
# Run 2 and run 12, word by word.
words() { $oracle judge --full < "$scratch/runs.batch" | sed -n "$1p" | cut -f5; }
[ "$(words 2)" = "0100000000000000280000000000000028000000010000002800000001000000340000003500000000000000010000000100000078" ] || fail "run 2's sheet"
[ "$(words 12)" = "010000000200000028000000020000004000000002000000480000000200000060000000620000000800000004000000000000000a000000000000000200000001000000080000000000000001000000090000000100000001000000080000007071" ] || fail "run 12's sheet"

# The full line has the second span last, behind the engine.
[ "$($oracle judge --full < "$scratch/runs.batch" | cut -f1,8,9 | tr '\t' ' ' | grep -v ' 0 0$')" = "25 0 1" ] || fail "the full line's second span"
# Document 01's line alone.
sed 's/ @[0-9]*,[0-9]*$//' "$scratch/wanted.txt" > "$scratch/alone.txt"
for who in judge reference; do
    $oracle $who --no-checksum < "$scratch/runs.batch" | cmp - "$scratch/alone.txt" || fail "$who does not give document 01's line alone"
done

say "14 at the lowest TreeSet, after 8 and before 9 and the typing codes"
# A program, where its 14 is, and its former code in plain and in strict, counted by hand; - for a program without a TreeSet. u is
# nowhere bound. Lines are parted by |.
while IFS='~' read -r program place plain strict; do
    printf '%s\n' "$program" | tr '|' '\n' | $oracle encode > "$scratch/retired.batch"
    for setting in "" --strict; do
        former=$plain
        [ -z "$setting" ] || former=$strict
        for who in judge reference; do
            [ "$($oracle $who $setting --former < "$scratch/retired.batch" | sed 's/^accepted.*/accepted/; s/^refused \([0-9]*\).*/\1/')" = "$former" ] ||
                fail "$program: $who $setting has another former answer than $former"
            if [ "$place" = - ]; then
                $oracle $who $setting --former < "$scratch/retired.batch" > "$scratch/wanted.txt"
            else
                printf 'refused 14 %s 0 0 -\n' "$place" > "$scratch/wanted.txt"
            fi
            $oracle $who $setting < "$scratch/retired.batch" | cmp - "$scratch/wanted.txt" || fail "$program: no 14 at $place by $who $setting"
            $oracle convert < "$scratch/retired.batch" 2> "$scratch/note.txt" | $oracle $who $setting > "$scratch/converted.txt"
            $oracle $who $setting --former < "$scratch/retired.batch" | cmp - "$scratch/converted.txt" || fail "$program: converted, another answer by $who $setting"
        done
    done
done <<'RETIRED'
t{1}~2~accepted~accepted
x = {1}~-~accepted~accepted
x = treeset([1])~-~accepted~accepted
x = {1, t{2}}|y = t{t{3}}~5~accepted~accepted
[1, "a", t{1}]~5~accepted~accepted
{u: u, 1: t{1}}~6~accepted~accepted
@int between 1 2|int(1, t{1})~5~accepted~accepted
x = 1 + "a"|y = t{1}~8~29~29
x = 1|x = "s"|t{-1}~8~25~25
if True: 1 + t{-"a"}~7~accepted~34
while True:| break| def f(): return t{1}~8~accepted~accepted
t{a} = u~2~28~28
u[t{1}] = t{2}~4~accepted~accepted
if t{1}: pass~2~36~36
for i in t{1}: x = i~2~accepted~accepted
def a():| def b():|  def c():|   def d():|    def e():|     def f():|      def g():|       def h(): pass|t{1}~19~9~9
RETIRED
# Depth 64 and 65: what t{[[..[1]..]]} gets with 60 and with 61 Lists.
for lists in 60 61; do
    printf 't{%s1%s}\n' "$(printf '[%.0s' $(seq $lists))" "$(printf ']%.0s' $(seq $lists))" | $oracle encode > "$scratch/retired.batch"
    $oracle judge < "$scratch/retired.batch"
    $oracle reference < "$scratch/retired.batch"
done > "$scratch/said.txt"
printf 'refused %s 0 0 -\n' "14 2" "14 2" "8 64" "8 64" | cmp - "$scratch/said.txt" || fail "8 does not come before 14"

say "convert makes Sets of TreeSets and keeps all else"
cat > "$scratch/trees.txt" <<'TREES'
a = t{1, t{2, {3}}, 4}
---
x = [30]
---
if True:
  (b, c[t{1}]) = t{}
TREES
cat > "$scratch/sets.txt" <<'SETS'
a = {1, {2, {3}}, 4}
---
x = [1]
---
if True:
  (b, c[{1}]) = {,}
SETS
$oracle encode < "$scratch/trees.txt" > "$scratch/trees.batch"
$oracle convert < "$scratch/trees.batch" > "$scratch/sets.batch" 2> "$scratch/note.txt"
[ "$(cat "$scratch/note.txt")" = "3 images, 0 of them refused with 1 to 8 and copied as they are" ] || fail "the note of convert"
# As show writes them, whatever their spans.
$oracle show --source < "$scratch/sets.batch" > "$scratch/shown.txt"
$oracle encode < "$scratch/sets.txt" | $oracle show --source | cmp - "$scratch/shown.txt" || fail "the converted programs are others"
# Byte by byte: 30 became 29, 36 and 35 as cmp writes them, as often as there are TreeSets.
[ "$(cmp -l "$scratch/trees.batch" "$scratch/sets.batch" | tr -s ' ' | sed 's/^ *[0-9]* //' | uniq -c | tr -s ' ')" = " 4 36 35" ] || fail "the converted bytes"
$oracle convert < "$scratch/sets.batch" 2> "$scratch/note.txt" | cmp - "$scratch/sets.batch" || fail "converted twice, something changes"

say "converted images get T's former answers"
$oracle convert < $stored/images.batch > "$scratch/converted.batch" 2> "$scratch/note.txt"
refused=$(grep -c '^refused [1-8] ' $stored/answers.txt)
grep -q "images, $refused of them" "$scratch/note.txt" || fail "convert copies others than those that are refused with 1 to 8"
$oracle generate --seed 6 --family treesets --count 600 > "$scratch/trees.batch"
for setting in "" --strict "--sheet-room 98 --message-room 69"; do
    for list in $stored/images.batch "$scratch/trees.batch"; do
        # shellcheck disable=SC2086 # the rooms are words
        $oracle judge --rules --former $setting < "$list" > "$scratch/former.txt"
        $oracle convert < "$list" 2> "$scratch/note.txt" | $oracle judge --rules $setting | cmp - "$scratch/former.txt" || fail "a converted image has another answer, $setting"
        $oracle compare --converted $setting $oracle reference $setting < "$list" > "$scratch/compare.txt" || { cat "$scratch/compare.txt"; fail "compare --converted, $setting"; }
    done
done
if $oracle compare --converted --show 1 $oracle mistaken sets-unread < "$scratch/trees.batch" > "$scratch/compare.txt"; then fail "compare --converted finds nothing"; fi
# Raw they are refused, so a program that is given them as they are does not pass for one that is given them converted.
if $oracle compare --converted --show 0 sh -c 'cat > /dev/null; '"$oracle"' reference < '"$scratch/trees.batch" < "$scratch/trees.batch" > "$scratch/compare.txt"; then fail "compare --converted does not convert"; fi

say "TreeSets stand in the family treesets, and in no well-formed image of another"
for family in $($oracle families | cut -d' ' -f1); do
    $oracle generate --seed 7 --family "$family" --count 500 > "$scratch/family.batch"
    count=$($oracle reference < "$scratch/family.batch" | grep -c '^refused 14 ' || true)
    case $family in
        treesets) [ "$count" -ge 325 ] && [ "$count" -le 425 ] || fail "$count of 500 images of $family have a TreeSet" ;;
        *) [ "$count" -eq 0 ] || fail "$count of 500 images of $family have a TreeSet" ;;
    esac
done

say "25 and 23 point at the node that first made the old type known"
# A program, and its code and second span in plain and in strict, counted by hand. u is nowhere bound. Lines are parted by |.
while IFS='~' read -r program plain strict; do
    printf '%s\n' "$program" | tr '|' '\n' | $oracle encode > "$scratch/first.batch"
    for who in judge reference; do
        for setting in "" --strict; do
            $oracle $who $setting < "$scratch/first.batch" | sed 's/^accepted.*/accepted/; s/^refused \([0-9]*\) [^@]*/\1 /; s/ *$//'
        done | tr '\n' '~'
    done > "$scratch/said.txt"
    [ "$(cat "$scratch/said.txt")" = "$plain~$strict~$plain~$strict~" ] || fail "$program: $(cat "$scratch/said.txt")"
done <<'FIRST'
x = 1|x = "s"~25 @0,1~25 @0,1
x = u|x = 1|x = 2|x = u|x = "s"~25 @6,7~25 @6,7
(x, x) = (1, "s")~25 @1,2~25 @1,2
(x, (y, z)) = [[1, 2], [3, 4]]|z = "s"~25 @8,9~25 @8,9
(x, y) = (1, [2, 3])|(x, (x, x)) = (4, y)|(x, x) = (5, y)~25 @1,2~25 @1,2
for i in [1]: i = "s"~25 @9,12~25 @9,12
p = [1]|for i in p: i = "s"~25 @17,18~25 @17,18
i = 1|for i in [2]: i = "s"~25 @15,18~25 @15,18
i = 1|for i in [2]: pass|i = "s"~25 @0,1~25 @0,1
i = 1|for i in u:| i = "s"| i = 2~25 @19,20~25 @19,20
x = 1|def f():| x = 2| x = "s"~25 @0,1~25 @0,1
x = 1|def f(x):| x = 2| x = "s"~25 @17,18~25 @17,18
x = 1|if True:| def f(x):|  x = 2|  break|x = "s"~25 @0,1~20
if True: x = u|elif True: x = 1|else: x = 2|x = "s"~25 @26,27~25 @26,27
x = 1|if True:| def f(x):|  x = "s"|  1 + "a"|x = 2~25 @28,29~29
x = 1|def f():| if True:|  def g(x):|   x = 2|   break| else: x = 3| x = "s"~25 @40,41~20
if True: x = 1|else: x = "s"~23 @9,10~23 @9,10
if True: (b, a) = (1, 2)|else: (a, b) = ("s", "t")~23 @13,14~23 @13,14
x = 1|def f():| if True: x = 2| else:|  def g(x):|   x = "s"|   break~23 @0,1~20
x = 1|def f():| if True:|  def g(x):|   x = "s"|   break| else: x = 2~23 @40,41~20
while True: x = 1|x = 2|x = "s"~25 @18,19~25 @18,19
if True: (x, x) = (1, "s")|x = "t"~25 @10,11~25 @10,11
x = 1|if True: x = "s"|while True:| if True: y = 1| else: y = "s"~accepted~25 @0,1
x = 1|(x, y) = (1, 2, 3)~26~26
x = 1|x = x + "s"~29~29
FIRST

say "the sheet lists what a module may bind"
# A program, and one that binds the same names at module level, with the same types: their sheets are equal. u is nowhere bound.
# Lines are parted by |.
while IFS='~' read -r program plainly; do
    for text in "$program" "$plainly"; do
        printf '%s\n' "$text" | tr '|' '\n' | $oracle encode | $oracle judge
    done > "$scratch/listed.txt"
    [ "$(grep -c '^accepted ' "$scratch/listed.txt")" -eq 2 ] && [ "$(uniq "$scratch/listed.txt" | wc -l)" -eq 1 ] ||
        { cat "$scratch/listed.txt"; fail "$program does not list what $plainly lists"; }
done <<'LISTED'
for i in [1]: x = [i]~i = u|x = u
i = "s"|for i in [1]: pass~i = "s"
if True: pass|elif True: x = u|else:| while True: y = 1~x = u|y = u
if True: x = 1 + "a"~x = u
for i in u:| if True:|  while True: (a, (b, o[p]), q.r) = u~a = u|b = u|i = u
if True: (a, [x], b) = u~a = u|b = u
def f(a): x = 1~
for i in u:| def f(a): x = 1~i = u
if True:| def f():|  y = 1|  break~y = 1
while True:| def f():|  y = 1|  break~
if True:| x = 1| def f(): break~x = u
LISTED

say "images shown as text and read again are judged the same, spans apart"
for family in well small stray dropped calls types bound first; do
    $oracle generate --seed 3 --family $family --count 200 > "$scratch/programs.batch"
    $oracle show --source < "$scratch/programs.batch" | $oracle encode > "$scratch/again.batch"
    for list in programs again; do
        $oracle judge < "$scratch/$list.batch" | sed 's/^\(refused [0-9]* [0-9]*\) [0-9]* [0-9]* /\1 /; s/ @[0-9]*,[0-9]*$//' > "$scratch/$list.txt"
    done
    cmp "$scratch/programs.txt" "$scratch/again.txt" || fail "text of $family"
done

say "the reference agrees with T"
$oracle check-reference --seed 2 --count 300 > "$scratch/check.txt" || { cat "$scratch/check.txt"; fail "the reference differs from T"; }
tail -2 "$scratch/check.txt"
$oracle exhaust --nodes 4 > "$scratch/exhaust.txt" || { cat "$scratch/exhaust.txt"; fail "the reference differs from T"; }
tail -1 "$scratch/exhaust.txt"
$oracle check-reference --strict --seed 2 --count 300 > "$scratch/check.txt" || { cat "$scratch/check.txt"; fail "the reference differs from T in strict"; }
tail -2 "$scratch/check.txt"
$oracle exhaust --strict --nodes 4 > "$scratch/exhaust.txt" || { cat "$scratch/exhaust.txt"; fail "the reference differs from T in strict"; }
tail -1 "$scratch/exhaust.txt"

say "the stored list is what its seed makes"
$oracle store --seed $seed --out "$scratch"
for file in images.batch answers.txt strict-answers.txt notes.txt tight-images.batch tight-answers.txt tight-notes.txt; do
    cmp "$scratch/$file" "$stored/$file" || fail "$stored/$file is not what seed $seed makes"
done
images_and_answers="$stored/images.batch $stored/answers.txt $stored/strict-answers.txt $stored/notes.txt $stored/tight-images.batch $stored/tight-answers.txt $stored/tight-notes.txt"
[ "$(cat $images_and_answers | wc -c)" -lt 4800000 ] || fail "the stored lists are 4.8 MB or more"
[ "$(cut -f3 $stored/notes.txt | grep -c '^operator [0-9]* kept: ')" -eq 2366 ] ||
    fail "an operator with a pair of kinds does not stand in $stored by itself"

say "the stored answers are T's, and the reference's"
$oracle judge --rules < $stored/images.batch | cmp - $stored/answers.txt || fail "T answers otherwise"
$oracle reference < $stored/images.batch | cmp - $stored/answers.txt || fail "the reference answers otherwise"
$oracle judge --strict --rules < $stored/images.batch | cmp - $stored/strict-answers.txt || fail "T answers otherwise in strict"
$oracle reference --strict < $stored/images.batch | cmp - $stored/strict-answers.txt || fail "the reference answers otherwise in strict"
[ "$(diff $stored/answers.txt $stored/strict-answers.txt | grep -c '^>')" -ge 300 ] || fail "fewer than 300 answers differ in strict"
for list in answers strict-answers; do
    # 25 and 23, often enough, each with its second span; and no other line with one.
    [ "$(grep -c '^refused 2[53] .* @[0-9]*,[0-9]*$' $stored/$list.txt)" -ge 400 ] || fail "fewer than 400 second spans in $list"
    if grep '^refused 2[53] ' $stored/$list.txt | grep -qv ' @[0-9]*,[0-9]*$'; then fail "a 25 or 23 without a second span in $list"; fi
    if grep -v '^refused 2[53] ' $stored/$list.txt | grep -q ' @[0-9]*,[0-9]*$'; then fail "another code with a second span in $list"; fi
done
for form in '^refused 25 .* - @[1-9]' '^refused 23 .* - @[1-9]' '^refused 25 .*[a-z)] @[1-9]' '^refused 23 .*[a-z)] @[1-9]'; do
    grep -q "$form" $stored/tight-answers.txt || fail "no line of the form $form in tight rooms"
done
for who in "judge --rules" reference; do
    $oracle $who --sheet-room 98 --message-room 69 < $stored/tight-images.batch | cmp - $stored/tight-answers.txt || fail "$who, tight rooms"
done
for code in 0 1 2 3 4 5 6 7 8 9 14 $(seq 20 50); do
    if [ "$code" = 0 ]; then form="^accepted "; else form="^refused $code "; fi
    grep -q "$form" $stored/answers.txt || fail "no stored image has code $code"
    grep -q "$form" $stored/strict-answers.txt || fail "no stored image has code $code in strict"
done
for code in 10 14; do
    grep -q "^refused $code " $stored/tight-answers.txt || fail "no stored image has code $code in tight rooms"
done

say "every mistake is told"
$oracle mistakes --tight $stored/tight-images.batch < $stored/images.batch > "$scratch/mistakes.txt" || { grep SURVIVES "$scratch/mistakes.txt"; fail "a mistake survives"; }
tail -1 "$scratch/mistakes.txt"
# With no images nothing is told: the suite can fail.
if $oracle mistakes --tight /dev/null < /dev/null > "$scratch/none.txt"; then fail "no images tell every mistake"; fi
grep -q "$(tail -1 "$scratch/mistakes.txt" | cut -d' ' -f1) mistakes, $(tail -1 "$scratch/mistakes.txt" | cut -d' ' -f1) survive" "$scratch/none.txt" || fail "no images tell a mistake"

say "compare finds nothing where there is nothing"
$oracle compare $oracle reference < $stored/images.batch > "$scratch/compare.txt" || { cat "$scratch/compare.txt"; fail "the reference compares otherwise"; }

say "compare finds and shrinks planted mistakes"
# name, and how many bytes the smallest form may have
while read -r name most setting; do
    if $oracle compare $setting --show 1 $oracle mistaken "$name" $setting < $stored/images.batch > "$scratch/compare.txt"; then fail "$name is not found"; fi
    size=$(sed -n 's/^  smallest form (\([0-9]*\) bytes).*/\1/p' "$scratch/compare.txt")
    [ -n "$size" ] && [ "$size" -le "$most" ] || { cat "$scratch/compare.txt"; fail "$name has a smallest form of $size bytes, not $most"; }
    printf '%s: %s bytes\n' "$name" "$size"
done <<'PLANTED'
pop-failed-def 293
if-error-returned 152
version-unread 56
five-before-four 140
ninth-allowed 461
types-as-formed 300
loop-name-missed 149
nested-tuples-missed 269
frame-unlisted 293
strict-frame-only 149 --strict
elif-dropped 319 --strict
if-clears-flag 245 --strict
first-is-value 221
loop-at-for 221
equal-replaces 293
merge-lowest-node 605
clash-at-lowest 533
assigned-by-node 461
strict-has-none 221 --strict
retired-at-last 197
retired-as-walked 149
retired-dropped 149
retired-before-eight 1592
sets-retired-too 149
PLANTED

say "compare tells a program without second spans, and takes it with --no-checksum"
if ORACLE="$oracle" $oracle compare --show 0 sh -c '"$ORACLE" reference | sed "s/ @[0-9,]*$//"' < $stored/images.batch > "$scratch/compare.txt"; then fail "no second span is needed"; fi
count=$(grep -c '^refused 2[53] ' $stored/answers.txt)
grep -q "^[0-9]* images, $count differ" "$scratch/compare.txt" || { cat "$scratch/compare.txt"; fail "not each 25 and 23 needs its second span"; }
$oracle compare --no-checksum $oracle reference --no-checksum < $stored/images.batch > "$scratch/compare.txt" || { cat "$scratch/compare.txt"; fail "document 01's lines alone"; }

say "compare tells a program that ends without a line"
if $oracle compare --show 0 true < $stored/tight-images.batch > "$scratch/compare.txt"; then fail "a silent program passes"; fi
count=$(wc -l < $stored/tight-answers.txt)
grep -q "^$count images, $count differ" "$scratch/compare.txt" || fail "a silent program passes in part"

say "compare takes a program that judges one image at a time"
cat > "$scratch/one.sh" <<'ONE'
#!/bin/sh
# An image on standard input, document 01's line on standard output.
image=$(mktemp)
cat > "$image"
size=$(wc -c < "$image")
{ printf "$(printf '\\%03o\\%03o\\%03o\\%03o' $((size % 256)) $((size / 256 % 256)) $((size / 65536 % 256)) $((size / 16777216)))"; cat "$image"; } |
    "$ORACLE" reference --no-checksum
rm -f "$image"
ONE
ORACLE="$(pwd)/$oracle" $oracle compare --single sh "$scratch/one.sh" < "$scratch/runs.batch" > "$scratch/compare.txt" || { cat "$scratch/compare.txt"; fail "one image at a time"; }

say "T as is says different things where the order of a merge shows"
printf 'if True:\n  if True:\n    a = 1\n    b = 1\n  else:\n    b = "s"\na - 1\na + "s"\n' | $oracle encode > "$scratch/order.batch"
[ "$($oracle hash-order --runs 400 < "$scratch/order.batch" | wc -l)" -eq 3 ] || fail "T as is always says the same"

say "sheets are read as they must be, and two opinions agree"
# Every good sheet is read and says what it was written from; every damage is refused, or the second opinion tells.
$oracle check-sheets --seed 4 --count 32000 > "$scratch/sheets.txt" || { cat "$scratch/sheets.txt"; fail "a sheet is read wrongly"; }
tail -1 "$scratch/sheets.txt"
if grep '^first broken:' "$scratch/sheets.txt" | grep -q ' 0  '; then fail "a rule of the reader is never the first broken"; fi
$oracle exhaust-sheets > "$scratch/sheets.txt" || { cat "$scratch/sheets.txt"; fail "a small sheet is read wrongly"; }
tail -1 "$scratch/sheets.txt"

# With a rule left out something is wrong: the check can fail.
for rule in $($oracle sheet-rules | grep -v ' always ' | cut -d' ' -f1); do
    if $oracle check-sheets --seed 4 --count 1280 --without "$rule" > "$scratch/sheets.txt"; then fail "$rule left out is not noticed"; fi
    grep -q '^1280 sheets, ' "$scratch/sheets.txt" || fail "the check ends early without $rule"
done

say "the sheets of document 01's runs are read"
for run in 1 2 12; do
    size=$(($(words $run | wc -c) / 2))
    printf "$(printf '\\%03o\\%03o\\0\\0' $((size % 256)) $((size / 256)))"
    printf "$(words $run | sed 's/../& /g' | tr ' ' '\n' | while read -r byte; do [ -z "$byte" ] || printf '\\%03o' "0x$byte"; done)"
done > "$scratch/run-sheets.batch"
printf 'read 0 0\nread 1 0\nread 2 2\n' > "$scratch/wanted.txt"
$oracle read < "$scratch/run-sheets.batch" | sed 's/ #[0-9a-f]*$//' | cmp - "$scratch/wanted.txt" || fail "the runs' sheets"

say "the stored sheets are what their seed makes"
$oracle store-sheets --seed $seed --out "$scratch"
for file in sheets.batch sheets-answers.txt sheets-notes.txt; do
    cmp "$scratch/$file" "$stored/$file" || fail "$stored/$file is not what seed $seed makes"
done
[ "$(cat $stored/sheets* | wc -c)" -lt 1500000 ] || fail "the stored sheets are 1.5 MB or more"
$oracle read < $stored/sheets.batch | cmp - $stored/sheets-answers.txt || fail "the reader answers otherwise"
$oracle sheet-kinds | while read -r kind fate _; do
    count=$(cut -f2 $stored/sheets-notes.txt | grep -cx "$kind" || true)
    [ "$fate" = read ] || [ "$count" -ge 5 ] || fail "only $count stored sheets of $kind"
    [ "$count" -ge 1 ] || fail "no stored sheet of $kind"
done

say "the stored sheets tell a reader with any rule left out"
$oracle compare --sheets $oracle read < $stored/sheets.batch > "$scratch/compare.txt" || { cat "$scratch/compare.txt"; fail "the reader compares otherwise"; }
for rule in $($oracle sheet-rules | grep -v ' always ' | cut -d' ' -f1); do
    if $oracle compare --sheets --show 1 $oracle read --without "$rule" < $stored/sheets.batch > "$scratch/compare.txt"; then fail "$rule left out is not told"; fi
    # Told by a sheet that breaks this rule, and not by a program that ends.
    grep -q "breaks $rule " "$scratch/compare.txt" || { cat "$scratch/compare.txt"; fail "$rule left out is told by another rule"; }
    printf '%s: %s\n' "$rule" "$(tail -1 "$scratch/compare.txt")"
done

if $oracle compare --sheets --show 0 true < $stored/sheets.batch > "$scratch/compare.txt"; then fail "a silent program passes"; fi
count=$(wc -l < $stored/sheets-answers.txt)
grep -q "^$count sheets, $count differ" "$scratch/compare.txt" || fail "a silent program passes in part"
ORACLE="$oracle" $oracle compare --sheets --no-checksum sh -c '"$ORACLE" read | sed "s/ #.*//"' < $stored/sheets.batch > "$scratch/compare.txt" || fail "lines without a checksum"

say "all is well"
