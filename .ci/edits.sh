# Sourced by the checks that try wrong edits of the crates. An edit is tried in a copy of the repository, outside of it, by `rt check` over the out/
# of the crate as it stands: only what the edit touches is checked again.
workers=${WORKERS:-$(nproc)}
[ -n "${WORKERS:-}" ] || [ "$workers" -le 4 ] || workers=4

# replaces the one place of OLD in a file; 3 where there is none, 4 where there are several
replace() { # FILE OLD NEW
    OLD=$2 NEW=$3 awk '
        { text = text $0 "\n" }
        END {
            old = ENVIRON["OLD"]
            at = index(text, old)
            if (old == "" || !at) exit 3
            rest = substr(text, at + length(old))
            if (index(rest, old)) exit 4
            printf "%s%s%s", substr(text, 1, at - 1), ENVIRON["NEW"], rest
        }' "$1" >"$1.edited"
    case $? in
    0) mv "$1.edited" "$1" ;;
    4) rm -f "$1.edited"; return 4 ;;
    *) rm -f "$1.edited"; return 3 ;;
    esac
}

# Applies an edit to a crate folder, as `rt must-fail` does: a 'file:' line holds for the pairs of 'old:' and 'new:' after it. Where it cannot,
# it prints why and fails.
apply_edit() { # EDIT FOLDER
    local line file='' old='' pairs=0
    while IFS= read -r line || [ -n "$line" ]; do
        case $line in
        'file: '*) file=${line#file: } ;;
        'old: '*) old=${line#old: } ;;
        'new:'*)
            line=${line#new:}
            case /$file/ in */../* | //*) echo "a 'file:' line leads out of the crate"; return 1 ;; esac
            case $file in src/* | specs/* | proofs/*) ;; *) echo "a 'file:' line names no file under src/, specs/ or proofs/"; return 1 ;; esac
            [ -f "$2/$file" ] || { echo "a 'file:' line names no file of the crate"; return 1; }
            replace "$2/$file" "$old" "${line# }"
            case $? in
            0) ;;
            4) echo "an 'old:' text is in $file more than once"; return 1 ;;
            *) echo "an 'old:' text is not in $file"; return 1 ;;
            esac
            old='' pairs=$((pairs + 1))
            ;;
        esac
    done <"$1"
    [ "$pairs" -gt 0 ] || { echo "it has no 'old:' and 'new:' pair"; return 1; }
}

# ---- what a check says

# The refusals in what a check said, in its order, each as PLACE: WORDS, without those that only follow from another: an error in a file, or, for
# goals of a function that no file answers, the file that should and where in the code they come from. Where the function has such a file, an edit may
# have renamed a goal that it answers: then only those count for which the check found values at which they are false.
refusals() { # LOG
    awk '
        function unproved(file, name, of) { print file ": no proof of `" name "`, of code at" (of == "" ? " no line" : of) }
        { sub(/^\.\//, "") }
        /^note: src\/[^ ]*: it is not proved that/ {
            place = $2
            sub(/:$/, "", place)
            code = code " " place
            if (/at which this goal is false/) false_code = false_code " " place
        }
        /^[^ ]+:[0-9]+:[0-9]+: error: / && !/was not admitted/ && !/ not checked/ {
            place = $1
            sub(/:$/, "", place)
            sub(/^[^ ]+: error: /, "")
            print place ": " $0
        }
        /^fn [^ ]+: / {
            name = $2
            sub(/:$/, "", name)
            path = name
            sub(/^[^:]*::/, "", path)
            gsub(/::/, "/", path)
            if (/: no proof: / && match($0, /\.\/proofs\/[^ ;,]*\.antt/)) unproved(substr($0, RSTART + 2, RLENGTH - 2), name, code)
            else if (/: not proved/ && false_code != "") unproved("proofs/" path "/Answers.antt", name, false_code)
            code = false_code = ""
        }' "$1"
}

# Those of them that show something of a contract: not a proof that names what the edit took away, nor a text that cannot be read.
telling() { grep -vE '^[^ ]+: .*(is not in scope|has no field|has no `|is no name|operand is missing|expected the end|cannot continue)'; }

# A function is refused at any of its proof files, whose folder has a + before a function that calls itself; a law or a table at its own file.
place_of() { sed -E 's#:[0-9]+:[0-9]+$##; s#^(proofs/.+)/(Proof|Answers|Invariants)\.antt$#\1#; s#/\+#/#g' <<<"$1"; } # FILE[:LINE:COLUMN]

# Whether a refusal is at a place: at that file, or, for a function that has no file, in that file of the code.
is_at() { # REFUSAL PLACE
    local first=${1%%: *}
    [ "$(place_of "$first")" = "$2" ] || [[ $1 == *": no proof of "*" of code at"*" $2:"* ]]
}

# runs a command and notes under KEY what it took of the processor
timed() { # KEY COMMAND..
    local key=$1 TIMEFORMAT='%U %S'
    shift
    { time "$@" 2>&4; } 4>&2 2>>"$tmp/times/$key"
}

processor() { awk '{ s += $1 + $2 } END { printf "%d", s }' "$tmp/times/$1"; } # KEY

# ---- copies

# The lines of crates.txt of some crates and of all that they stand on.
lines_of() { # NAME..
    awk -v wanted="$*" '
        { sub(/#.*/, "") }
        split($0, part, ":") == 2 { split(part[1], head, " "); line[head[1]] = $0; needs[head[1]] = part[2]; order[++n] = head[1] }
        function reach(name, i, k, of) {
            if (!(name in line) || name in is) return
            is[name] = 1
            k = split(needs[name], of, " ")
            for (i = 1; i <= k; i++) reach(of[i])
        }
        END {
            k = split(wanted, name, " ")
            for (i = 1; i <= k; i++) reach(name[i])
            for (i = 1; i <= n; i++) if (order[i] in is) print line[order[i]]
        }' crates.txt
}

# A copy of these crates and of those below them in $base, without what rt has made of them: a check there begins with what checks of the same
# files on this machine have kept.
copy_crates() { # NAME..
    local name
    mkdir -p "$base/crates" "$tmp/times"
    [ ! -f HANDLES ] || cp HANDLES "$base/"
    lines_of "$@" >"$base/crates.txt"
    sed 's/[ :].*//' "$base/crates.txt" | while IFS= read -r name; do
        mkdir "$base/crates/$name"
        cp -R "crates/$name/src" "$base/crates/$name/"
        for part in specs proofs edits; do [ ! -d "crates/$name/$part" ] || cp -R "crates/$name/$part" "$base/crates/$name/"; done
    done
}

# proves the copy as it stands, several crates at a time
prove_copy() { (cd "$base" && rt all check --jobs "$workers") >"$tmp/base.log" 2>&1; }

# Gives the kept work below a folder files of its own, where links of `cp -l` lead to $base; what a check has proved stays a link, because a check
# puts a new file in the place of such a one and changes none.
own_files() { # FOLDER
    find "$1" -path '*/out/incremental/*' -type f -links +1 ! -name '*.oantt' -exec sh -c 'for it; do cp -p "$it" "$it.own" && mv "$it.own" "$it"; done' _ {} +
}

# a folder with all that is in it, by links where there are links
copy() { cp -Rl "$1" "$2" 2>/dev/null || { rm -rf "$2"; cp -R "$1" "$2"; }; } # FOLDER NEW

# a copy of $base for each worker
copy_workers() {
    local w
    for ((w = 1; w <= workers; w++)); do
        copy "$base" "$tmp/worker-$w"
        own_files "$tmp/worker-$w"
    done
}

# runs FUNCTION ITEM for each item, in the copy of a worker that is free, in the order of the items
share_out() { # FUNCTION ITEM...
    local each=$1 claims w i
    shift
    claims=$(mktemp -d "$tmp/claims.XXXXXX") || exit 2
    for ((w = 1; w <= workers; w++)); do
        (
            cd "$tmp/worker-$w" || exit 2
            for ((i = 1; i <= $#; i++)); do
                ! mkdir "$claims/$i" 2>/dev/null || "$each" "${!i}"
            done
        ) &
    done
    wait
}

# Checks a crate of a worker's copy, with those below it that were edited; one process, because the workers share the processors.
check() { (cd "crates/$1" && timeout 900 rt check --jobs 1); } # NAME

# the crate as it stands, with what its check kept
put_back() { # NAME
    rm -rf "crates/$1"
    copy "$base/crates/$1" "crates/$1"
    own_files "crates/$1"
}

# ---- what is left out of a copy

# a table computes: it opens a gate `computes`
is_table() { grep -qsE '^ *unfolding .*\.computes' "$1"; } # FILE

# takes a file of laws out of a folder's list of modules, and away
take_out() { # FILE
    local module folder list
    module=$(basename "$1" .antt)
    folder=$(dirname "$1")
    rm "$1"
    for list in "$folder/Lib.antt" "$folder.antt"; do
        [ ! -f "$list" ] || sed -i -E "/^(pub )?mod $module\$/d" "$list"
    done
}

# Takes the computed tables out of a crate folder but for the file KEPT. No file but the list of its folder's modules names a table, so that what
# is left is refused where the whole would be.
take_tables() { # FOLDER KEPT
    local file
    [ -d "$1/proofs" ] || return 0
    find "$1/proofs" -name '*.antt' | while IFS= read -r file; do
        ! is_table "$file" || [ "$file" = "$1/$2" ] || take_out "$file"
    done
}

# Where a table is to refuse an edit of a definition, nothing else of the crate's proofs is asked: the law files beside it that neither it nor a
# function's proof names are taken out too, so that they are not checked again.
take_laws() { # FOLDER KEPT
    local file module needed more
    [ "$(dirname "$2")" = proofs ] && is_table "$1/$2" || return 0
    cites() { grep -ohsE '(\.|::)proofs(\.|::)[A-Z][A-Za-z]*' "$@" | sed 's/.*[.:]//'; }
    needed=$(cites "$1/$2" $(find "$1/proofs" -mindepth 2 -name '*.antt') $(find "$1/src" -name '*.rt') | sort -u)
    while :; do
        more=$({ echo "$needed"; for module in $needed; do cites "$1/proofs/$module.antt"; done; } | sort -u)
        [ "$more" != "$needed" ] || break
        needed=$more
    done
    for file in "$1"/proofs/*.antt; do
        module=$(basename "$file" .antt)
        [ "$module" = Lib ] || [ "$file" = "$1/$2" ] || grep -qx "$module" <<<"$needed" || take_out "$file"
    done
}
