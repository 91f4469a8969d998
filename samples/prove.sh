# For samples/run.sh: proves and builds a program, and shows on standard error how far that is.

# The crates that a program needs, itself among them. In crates.txt each stands above those that need it (tests/tidy/layers.rs).
crates_of() {
    tac crates.txt | tr ':' ' ' | awk -v program="$1" '
        BEGIN { needed[program] }
        { sub(/#.*/, "") }
        $1 in needed { print $1; for (i = 2; i <= NF; i++) needed[$i] }'
}

# The minutes that so many crates take, on the machine that this was written on: 10 seconds each with one processor, 6 with two. More help
# little, since crates wait for each other.
minutes() {
    local each=6
    if [ "${RT_JOBS:-$(nproc)}" = 1 ]; then
        each=10
    fi
    echo $((($1 * each + 59) / 60))
}

# progress CRATES UNPROVED. Of what `rt run` says: a line for each crate that it proves, and whatever else it says itself.
progress() {
    local count=$(($1 - $2)) crate='' since=$SECONDS line
    while IFS= read -r line; do
        case $line in
            'rt: chose --jobs '*)
                crate=${line##* }
                since=$SECONDS
                ;;
            'logic=proved '* | 'linked target='*)
                count=$((count + 1))
                echo "$count of $1 proved: $crate ($((SECONDS - since)) s)"
                ;;
            'logic=not-proved'*) echo "$crate NOT PROVED ($((SECONDS - since)) s)" ;;
            'rt: running '* | 'rt: nothing has changed '* | 'rt: '*': begins with what a check kept in '*) ;;
            'rt: '*) echo "$line" ;;
        esac
    done
}

# prove PROGRAM, in the repository's root, which makes crates/PROGRAM/out/PROGRAM. What is proved and unchanged is not proved again. The
# status is that of `rt run`, which runs the program too, on no input; all that it says is in target/log.
prove() {
    local crate crates unproved=0
    mapfile -t crates < <(crates_of "$1")
    for crate in "${crates[@]}"; do
        if [ ! -f "crates/$crate/out/rlib/stamp" ] && [ ! -f "crates/$crate/out/$crate.stamp" ]; then
            unproved=$((unproved + 1))
        fi
    done
    if [ "$unproved" -gt 0 ]; then
        echo "crates to prove for \`$1\`: $unproved, about $(minutes "$unproved") min (\`rt try\` in crates/$1 runs it unproved, in seconds)" >&2
    fi
    mkdir -p target/log
    (cd "crates/$1" && rt run < /dev/null 2>&1 > /dev/null) | tee "target/log/$1.out" | progress "${#crates[@]}" "$unproved" >&2
}
