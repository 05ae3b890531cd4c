#!/usr/bin/env bash
# Checks the profiles of a folder: check-profiles.sh FOLDER
#
# - lint: each profile NAME.toml has no error; a warning is printed, and passes;
# - verify: each script NAME.script, which states its answers, passes with the profile of its name;
# - differ: each canonical text NAME.rt1553 that is kept means the same terminal as the profile of its name.
#
# A profile with neither a script nor a canonical text gets a warning: nothing but its faults is checked.
#
# It prints what it finds as annotations with file and line, which GitHub Actions shows beside the text.
# It needs rt1553-tool. The status is 0 if nothing fails, else 1. A folder without a profile fails.
set -uo pipefail
if (($# != 1)); then
    echo 'check-profiles.sh FOLDER' >&2
    exit 2
fi
if ! command -v rt1553-tool >/dev/null; then
    echo 'check-profiles.sh: rt1553-tool is not in PATH' >&2
    exit 2
fi
folder=$1
status=0

# a text as an annotation has it, on one line: escaped TEXT
escaped() {
    local text=${1//'%'/%25}
    text=${text//$'\r'/%0D}
    printf '%s' "${text//$'\n'/%0A}"
}

# a name as a property of an annotation has it: property NAME
property() {
    local text
    text=$(escaped "$1")
    text=${text//:/%3A}
    printf '%s' "${text//,/%2C}"
}

# an annotation: tell KIND FILE WHERE TEXT, where WHERE is empty or begins with a comma
tell() { printf '::%s file=%s%s::%s\n' "$1" "$(property "$2")" "$3" "$(escaped "$4")"; }

# findings in lines FILE:LINE:COLUMN: KIND: TEXT, or FILE:LINE: TEXT, or FILE: TEXT, as annotations
annotate() {
    local line
    while IFS= read -r line; do
        if [[ $line =~ ^([^:]+):([0-9]+):([0-9]+):\ (error|warning):\ (.*)$ ]]; then
            tell "${BASH_REMATCH[4]}" "${BASH_REMATCH[1]}" ",line=${BASH_REMATCH[2]},col=${BASH_REMATCH[3]}" "${BASH_REMATCH[5]}"
        elif [[ $line =~ ^([^:]+):([0-9]+):\ (.*)$ ]]; then
            tell error "${BASH_REMATCH[1]}" ",line=${BASH_REMATCH[2]}" "${BASH_REMATCH[3]}"
        elif [[ $line =~ ^file:\ cannot\ read\ (.*)(:\ (no\ such\ file|no\ permission|it\ is\ a\ folder))$ ]]; then
            tell error "${BASH_REMATCH[1]}" '' "cannot read it${BASH_REMATCH[2]}"
        elif [[ $line =~ ^file:\ cannot\ read\ (.*)$ ]]; then
            tell error "${BASH_REMATCH[1]}" '' 'cannot read it'
        elif [[ $line =~ ^([^:]+):\ (.*)$ ]]; then
            tell error "${BASH_REMATCH[1]}" '' "${BASH_REMATCH[2]}"
        else
            printf '::error::%s\n' "$(escaped "$line")"
        fi
    done
}

# lines as annotations of a file, without the blanks that align a table: annotate_file FILE
annotate_file() {
    local line
    while IFS= read -r line; do
        [[ $line =~ ^([^:]*):\ \ +(.*)$ ]] && line="${BASH_REMATCH[1]}: ${BASH_REMATCH[2]}"
        tell error "$1" '' "$line"
    done
}

# ends the check with a failure where a status is at least this one: failed_from LEAST STATUS
failed_from() { (($2 < $1)) || status=1; }

shopt -s nullglob
profiles=("$folder"/*.toml)
if ((${#profiles[@]} == 0)); then
    printf '::error::there is no profile in %s\n' "$(escaped "$folder")"
    exit 1
fi
for profile in "${profiles[@]}"; do
    rt1553-tool lint "$profile" 2>&1 | annotate
    failed_from 2 "${PIPESTATUS[0]}"
    if [[ ! -e ${profile%.toml}.script && ! -e ${profile%.toml}.rt1553 ]]; then
        tell warning "$profile" '' 'it has neither a script nor a canonical text of its name'
    fi
done
for script in "$folder"/*.script; do
    rt1553-tool verify "${script%.script}.toml" "$script" 2>&1 | annotate
    failed_from 1 "${PIPESTATUS[0]}"
done
for kept in "$folder"/*.rt1553; do
    profile=${kept%.rt1553}.toml
    rt1553-tool differ "$kept" "$profile" 2>&1 | annotate_file "$profile"
    failed_from 1 "${PIPESTATUS[0]}"
done
exit "$status"
