# For other scripts: copies of the crates, and edits of them.

# copy_crates FOLDER: what each crate is made of, and their list. What `rt` has proved of it elsewhere on the machine it takes from there.
copy_crates() {
    local crate part
    mkdir -p "$1"
    cp crates.txt "$1"
    for crate in crates/*; do
        mkdir -p "$1/$crate"
        for part in src specs proofs; do
            if [ -d "$crate/$part" ]; then
                cp -r "$crate/$part" "$1/$crate"
            fi
        done
    done
}

# files_of EDIT: the files that an edit changes.
files_of() {
    sed -n 's/^file: //p' "$1" | sort -u
}

# apply FOLDER EDIT. An edit: `# why`, `file: PATH` in this folder, then pairs of `old: TEXT` and `new: TEXT`.
apply() {
    local line file='' old='' text rest
    while IFS= read -r line; do
        case $line in
            'file: '*) file=${line#file: } ;;
            'old: '*) old=${line#old: } ;;
            'new: '*)
                text=$(cat "$1/$file"; printf x)
                rest=${text#*"$old"}
                if [[ $rest == "$text" || $rest == *"$old"* ]]; then
                    echo "the old text does not stand in $file exactly once"
                    return 1
                fi
                text=${text%%"$old"*}${line#new: }$rest
                printf %s "${text%x}" > "$1/$file"
                ;;
        esac
    done < "$2"
}

# restore FOLDER ORIGINAL EDIT: the files of an edit are as they are in another folder.
restore() {
    local file
    while IFS= read -r file; do
        cp "$2/$file" "$1/$file"
    done < <(files_of "$3")
}

# in_turn WORKER COUNT: calls `WORKER NUMBER` for each number below COUNT, side by side, and waits for all.
in_turn() {
    local number one running=()
    for ((number = 0; number < $2; number++)); do
        "$1" "$number" &
        running+=($!)
    done
    for one in "${running[@]}"; do
        wait "$one"
    done
}
