# Sourced after real_files.sh by the checks that run what stands on the pages of docs/boot.

# is_there PROGRAM PACKAGE: whether this program is installed. Where it is not, it is skipped by name.
is_there() {
  command -v "$1" > /dev/null || {
    echo "skipped: $1, since it is missing (Debian's package $2 has it)"
    return 1
  }
}

# script_of PAGE [LANGUAGE]: the first block of the page between fences of this language.
script_of() {
  awk -v fence="\`\`\`${2-}" '
    shown && $0 == "```" { exit }
    shown { print }
    $0 == fence { shown = 1 }' "../../docs/boot/$1"
}
