# Completions of bootvars for bash, made by tools/completions: source it, or put it where bash looks for them.
_bootvars() {
    local current=${COMP_WORDS[COMP_CWORD]} before=${COMP_WORDS[COMP_CWORD - 1]}
    local command=bootvars words="" word
    for word in "${COMP_WORDS[@]:1:COMP_CWORD-1}"; do
        case "$command $word" in
            "bootvars check" | \
"bootvars read" | \
"bootvars show" | \
"bootvars diff" | \
"bootvars get" | \
"bootvars add" | \
"bootvars remove" | \
"bootvars first" | \
"bootvars order" | \
"bootvars next" | \
"bootvars timeout" | \
"bootvars activate" | \
"bootvars deactivate" | \
"bootvars try" | \
"bootvars confirm" | \
"bootvars apply" | \
"bootvars undo" | \
"bootvars write" | \
"bootvars update" | \
"bootvars option" | \
"bootvars frame" | \
"bootvars frame add" | \
"bootvars frame replace" | \
"bootvars frame add-free" | \
"bootvars frame add-first" | \
"bootvars frame remove" | \
"bootvars frame order" | \
"bootvars frame next" | \
"bootvars frame first" | \
"bootvars explain" | \
"bootvars efibootmgr") command+=" $word" ;;
        esac
    done
    case "$command $before" in
        "bootvars check --root" | \
"bootvars check --state" | \
"bootvars read --out" | \
"bootvars show --state" | \
"bootvars get --out" | \
"bootvars add --loader" | \
"bootvars add --root" | \
"bootvars add --optional-file" | \
"bootvars add --state" | \
"bootvars remove --state" | \
"bootvars first --state" | \
"bootvars order --state" | \
"bootvars next --state" | \
"bootvars timeout --state" | \
"bootvars activate --state" | \
"bootvars deactivate --state" | \
"bootvars try --state" | \
"bootvars confirm --state" | \
"bootvars apply --root" | \
"bootvars apply --state" | \
"bootvars undo --state" | \
"bootvars write --state" | \
"bootvars update --state" | \
"bootvars option --loader" | \
"bootvars option --root" | \
"bootvars option --optional-file" | \
"bootvars option --out") mapfile -t COMPREPLY < <(compgen -f -- "$current"); return ;;
        "bootvars check --boot-id" | \
"bootvars show --boot-id" | \
"bootvars add --description" | \
"bootvars add --disk" | \
"bootvars add --part" | \
"bootvars add --path" | \
"bootvars add --entry" | \
"bootvars add --attributes" | \
"bootvars add --optional-hex" | \
"bootvars add --optional-text" | \
"bootvars add --boot-id" | \
"bootvars add --machine" | \
"bootvars remove --boot-id" | \
"bootvars remove --machine" | \
"bootvars first --boot-id" | \
"bootvars first --machine" | \
"bootvars order --boot-id" | \
"bootvars order --machine" | \
"bootvars next --boot-id" | \
"bootvars next --machine" | \
"bootvars timeout --boot-id" | \
"bootvars timeout --machine" | \
"bootvars activate --boot-id" | \
"bootvars activate --machine" | \
"bootvars deactivate --boot-id" | \
"bootvars deactivate --machine" | \
"bootvars try --boot-id" | \
"bootvars try --machine" | \
"bootvars confirm --boot-id" | \
"bootvars confirm --machine" | \
"bootvars apply --boot-id" | \
"bootvars apply --machine" | \
"bootvars undo --boot-id" | \
"bootvars undo --machine" | \
"bootvars write --boot-id" | \
"bootvars write --machine" | \
"bootvars update --expect" | \
"bootvars update --boot-id" | \
"bootvars update --machine" | \
"bootvars option --description" | \
"bootvars option --disk" | \
"bootvars option --part" | \
"bootvars option --path" | \
"bootvars option --attributes" | \
"bootvars option --optional-hex" | \
"bootvars option --optional-text") return ;;
    esac
    case $command in
        "bootvars") words="check read show diff get add remove first order next timeout activate deactivate try confirm apply undo write update option frame explain efibootmgr --help --version -h -V" ;;
        "bootvars check") words="--json --root --state --boot-id --help --version -h -V" ;;
        "bootvars read") words="--out --boot-only --help --version -h -V" ;;
        "bootvars show") words="--json --state --boot-id --help --version -h -V" ;;
        "bootvars diff") words="--json --help --version -h -V" ;;
        "bootvars get") words="--out --help --version -h -V" ;;
        "bootvars add") words="--description --loader --disk --part --root --path --first --last --no-order --entry --again --try --inactive --hidden --app --reconnect --attributes --optional-hex --optional-file --optional-text --dry-run --json --state --boot-id --machine --adopt --force --help --version -h -V" ;;
        "bootvars remove") words="--dry-run --json --state --boot-id --machine --adopt --force --help --version -h -V" ;;
        "bootvars first") words="--dry-run --json --state --boot-id --machine --adopt --force --help --version -h -V" ;;
        "bootvars order") words="--empty --stale --only --dry-run --json --state --boot-id --machine --adopt --force --help --version -h -V" ;;
        "bootvars next") words="--none --dry-run --json --state --boot-id --machine --adopt --force --help --version -h -V" ;;
        "bootvars timeout") words="--none --dry-run --json --state --boot-id --machine --adopt --force --help --version -h -V" ;;
        "bootvars activate") words="--dry-run --json --state --boot-id --machine --adopt --force --help --version -h -V" ;;
        "bootvars deactivate") words="--dry-run --json --state --boot-id --machine --adopt --force --help --version -h -V" ;;
        "bootvars try") words="--forget --dry-run --json --state --boot-id --machine --adopt --help --version -h -V" ;;
        "bootvars confirm") words="--dry-run --json --state --boot-id --machine --adopt --help --version -h -V" ;;
        "bootvars apply") words="--of --dry-run --json --exit-code --root --state --boot-id --machine --adopt --force --help --version -h -V" ;;
        "bootvars undo") words="--list --dry-run --json --state --boot-id --machine --adopt --force --help --version -h -V" ;;
        "bootvars write") words="--dry-run --json --empty --state --boot-id --machine --force --help --version -h -V" ;;
        "bootvars update") words="--state --stream --dry-run --json --look --expect --next --settle --boot-id --machine --adopt --force --help --version -h -V" ;;
        "bootvars option") words="--description --loader --disk --part --root --path --inactive --hidden --app --reconnect --attributes --optional-hex --optional-file --optional-text --out --help --version -h -V" ;;
        "bootvars frame") words="add replace add-free add-first remove order next first --raw --help --version -h -V" ;;
        "bootvars frame add") words="--raw --help --version -h -V" ;;
        "bootvars frame replace") words="--raw --help --version -h -V" ;;
        "bootvars frame add-free") words="--raw --help --version -h -V" ;;
        "bootvars frame add-first") words="--raw --help --version -h -V" ;;
        "bootvars frame remove") words="--raw --help --version -h -V" ;;
        "bootvars frame order") words="--empty --raw --help --version -h -V" ;;
        "bootvars frame next") words="--raw --help --version -h -V" ;;
        "bootvars frame first") words="--raw --help --version -h -V" ;;
        "bootvars explain") words="--stream --json --help --version -h -V" ;;
        "bootvars efibootmgr") words="--help --version -h -V" ;;
    esac
    mapfile -t COMPREPLY < <(compgen -W "$words" -- "$current")
    [[ $current == -* || $command == bootvars ]] || mapfile -t -O "${#COMPREPLY[@]}" COMPREPLY < <(compgen -f -- "$current")
}
complete -o filenames -F _bootvars bootvars
