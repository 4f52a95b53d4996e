# Read by the scripts that try must-fail edits.

# Applies an edit's pairs of texts to the crate in this tree; each text stands once in its file. With a fourth word, those of files below that
# folder alone (src/: edits of definitions change no program).
apply() { # TREE NAME EDIT [FOLDER/]
    local tree=$1 name=$2 edit=$3 line file='' old=''
    while IFS= read -r line || [ -n "$line" ]; do
        case $line in
        "file: ${4:-}"*) file=$tree/crates/$name/${line#file: } ;;
        'file: '*) file='' ;;
        'old: '*) old=${line#old: } ;;
        'new:'*)
            [ -n "$file" ] || continue
            line=${line#new:}
            OLD=$old NEW=${line# } awk '
                { text = text $0 "\n" }
                END {
                    at = index(text, ENVIRON["OLD"])
                    if (!at) exit 1
                    printf "%s%s%s", substr(text, 1, at - 1), ENVIRON["NEW"], substr(text, at + length(ENVIRON["OLD"]))
                }' "$file" >"$file.edited" || return 1
            mv "$file.edited" "$file"
            ;;
        esac
    done <"$edit"
}
