"""The completions of bash, zsh and fish, for bench/manual."""
import re

MADE = "# Completions of cargo-audit for {}, made by bench/manual; not to be changed by hand.\n"
ABOUT = {"fix": "the report, and the updates of what is vulnerable", "bin": "files that hold a lockfile",
         "plan": "the version that each vulnerable package may go to", "vendor": "a local registry of what was audited",
         "generate": "made packages, audited twice in memory"}
ENDS = ("--baseline", "--write-baseline")
BEHIND = ("fix", "bin", "plan", "vendor")


def about(one):
    return "print the help" if one.name == "--help" else one.short


def spelt_of(head):
    """The spellings of a tool's option, by the head of its entry, and the word for its value."""
    front, _, value = head.partition(" ") if "," not in head else (head, "", "")
    return front.split(", "), value


def own(rows):
    """The options that only a tool has: all spellings, and those with a value."""
    spelt = [spelt_of(head) for head, _ in rows]
    return " ".join(each for many, _ in spelt for each in many), " | ".join(each for many, value in spelt if value for each in many)


def filled(template, **parts):
    return re.sub(r"@(\w+)@", lambda found: parts[found[1]], template)


# ---- bash

BASH = r"""
# Where the words of the line lead: the command that was met, whether one may follow, and the option
# whose value stands under the cursor.
_cargo_audit_place() {
    local at word
    for ((at = 2; at < COMP_CWORD; at++)); do
        word=${COMP_WORDS[at]}
        case $command:$ends:$word in
            bin:only:*) ;;
            bin:*:--) ends=only ;;
            @ENDS@) ends=yes ;;&
            @VALUED@)
                if [[ ${COMP_WORDS[at + 1]} == = ]]; then ((at++)); fi
                ((at++))
                if ((at >= COMP_CWORD)); then option=$word; fi ;;
            :*:-*) ;;
            :*) command=$word ;;
        esac
    done
}

# The words of a list that the word under the cursor begins.
_cargo_audit_words() {
    mapfile -t COMPREPLY < <(compgen -W "$1" -- "$word")
}

# The paths that it begins: files (-f) or folders (-d).
_cargo_audit_paths() {
    compopt -o filenames 2> /dev/null
    mapfile -t COMPREPLY < <(compgen "$1" -- "$word")
}

_cargo_audit() {
    local command='' ends='' option='' word=${COMP_WORDS[COMP_CWORD]}
    COMPREPLY=()
    if ((COMP_CWORD < 2)); then
        _cargo_audit_words 'audit @FRONT@'
        return
    fi
    [[ $word == = ]] && word=
    _cargo_audit_place
    if [[ -n $option ]]; then
        case $command:$option in
@VALUES@        esac
    elif [[ $ends != only && $word == -* ]]; then
        case $command in
@OPTIONS@        esac
    elif [[ -z $command && $ends != yes ]]; then
        if ((COMP_CWORD == 2)); then _cargo_audit_words '@COMMANDS@'; else _cargo_audit_words '@BEHIND@'; fi
    else
        case $command in
            bin) _cargo_audit_paths -f ;;
            vendor) _cargo_audit_paths -d ;;
        esac
    fi
}

# What stands behind `cargo audit-fresh`: options of its own first, and the words of an audit.
_cargo_audit_fresh() {
    _cargo_audit
    if ((COMP_CWORD == 2)); then mapfile -t -O ${#COMPREPLY[@]} COMPREPLY < <(compgen -W '@FRESH@' -- "${COMP_WORDS[2]}"); fi
}

# What stands behind `cargo audit-mirror`.
_cargo_audit_mirror() {
    local word=${COMP_WORDS[COMP_CWORD]}
    COMPREPLY=()
    case ${COMP_WORDS[COMP_CWORD - 1]} in @MIRRORVALUED@) return ;; esac
    if [[ $word == -* ]]; then _cargo_audit_words '@MIRROR@'; else _cargo_audit_paths -f; fi
}

# The two as programs by themselves.
_cargo_audit_alone() {
    COMP_WORDS=(cargo "${1##*cargo-}" "${COMP_WORDS[@]:1}")
    ((COMP_CWORD++))
    _cargo_audit_of_cargo "$@"
}

# Completes cargo by this file, and keeps the function that did so before.
_cargo_audit_take() {
    if [[ $(complete -p cargo 2> /dev/null) =~ \ -F\ ([^ ]+)\  && ${BASH_REMATCH[1]} != _cargo_audit_of_cargo ]]; then
        _cargo_audit_before=${BASH_REMATCH[1]}
    fi
    complete -o default -F _cargo_audit_of_cargo cargo
}

# `cargo audit ..` goes here too, and every other word of cargo to the function from before. Where there
# is none yet, bash-completion may have one to load.
_cargo_audit_of_cargo() {
    if ((COMP_CWORD > 1)); then
        case ${COMP_WORDS[1]} in
            audit) _cargo_audit "$@"; return ;;
            audit-fresh) _cargo_audit_fresh; return ;;
            audit-mirror) _cargo_audit_mirror; return ;;
        esac
    fi
    if [[ -z ${_cargo_audit_before-} ]]; then
        if declare -F _comp_load > /dev/null; then _comp_load cargo; elif declare -F __load_completion > /dev/null; then __load_completion cargo; fi
        _cargo_audit_take
    fi
    : "${_cargo_audit_before:=:}"
    "$_cargo_audit_before" "$@"
}

complete -F _cargo_audit cargo-audit
complete -F _cargo_audit_alone cargo-audit-fresh cargo-audit-mirror
_cargo_audit_take
"""


def bash_values(manual):
    """For each option with a value, in each place: what completes it."""
    text = ""
    for one in manual.options:
        if not one.value or one.kind == "text":
            continue
        place = "" if one.place == "audit" else one.place
        does = {"words": f"_cargo_audit_words '{' '.join(one.values)}'", "file": "_cargo_audit_paths -f", "folder": "_cargo_audit_paths -d"}
        text += f"            {' | '.join(f'{place}:{each}' for each in one.spellings())}) {does[one.kind]} ;;\n"
    return text


def bash_options(manual):
    text = ""
    for place in ("audit", *BEHIND):
        spelt = " ".join(each for one in manual.of(place) for each in one.spellings())
        text += f"            {place if place != 'audit' else repr('')}) _cargo_audit_words '{spelt}' ;;\n"
    return text


def bash(manual, tools):
    fresh, fresh_valued = own(tools["cargo-audit-fresh"])
    mirror, mirror_valued = own(tools["cargo-audit-mirror"])
    valued = [f":*:{each}" for each in fresh_valued.split(" | ")] + [f"{'' if one.place == 'audit' else one.place}:*:{each}" for one in manual.options if one.value for each in one.spellings()]
    return MADE.format("bash") + filled(
        BASH, ENDS=" | ".join(f":*:{each}*" for each in ENDS), VALUED=" | ".join(valued), VALUES=bash_values(manual), OPTIONS=bash_options(manual),
        FRONT=" ".join(each for one in manual.of("front") for each in one.spellings()), COMMANDS=" ".join((*BEHIND, "generate")), BEHIND=" ".join(BEHIND),
        FRESH=" ".join(each for each in fresh.split() if each not in ("-h", "--help")), MIRROR=mirror, MIRRORVALUED=mirror_valued)


# ---- zsh

ZSH = r"""
# cargo's own completion calls this with `audit` as the first word; without cargo it is the second.
_cargo-audit() {
    local curcontext=$curcontext ret=1
    local -a state line commands
    local -A opt_args
    case $service in
        cargo-audit-mirror)
            _arguments -s -S : @MIRROR@ \
                '1:lockfile:_files' \
                '2:mirror folder:_files -/'
            return ;;
        cargo-audit-fresh)
            words=(audit "${(@)words[2,-1]}") ;;
    esac
    if [[ $words[1] != audit ]]; then
        if (( CURRENT == 2 )); then
            _arguments : @FRONT@ \
                '1:command:(audit)'
            return
        fi
        shift words
        (( CURRENT-- ))
    fi
    commands=(@COMMANDS@)
    if (( CURRENT == 2 )); then commands+=('generate:@GENERATE@'); fi
    if (( ${words[(I)--(write-|)baseline(|=*)]} )); then commands=(); fi
    local -a fresh
    if [[ $service == cargo-audit-fresh ]]; then fresh=(@FRESH@); fi
    _arguments -s -C : $fresh @AUDIT@ \
        '1: :->command' \
        '*:: :->behind' && ret=0
    case $state in
        command) _describe -t commands command commands && ret=0 ;;
        behind)
            case $words[1] in
@BEHIND@            esac ;;
    esac
    return ret
}

_cargo-audit "$@"
"""


def zsh_text(text):
    return re.sub(r"([\[\]:\\])", r"\\\1", text).replace("'", "'\\''")


def zsh_option(one):
    if one.name == "--":
        return ""
    done = {"words": f"({' '.join(one.values)})", "file": "_files", "folder": "_files -/", "text": " ", "": ""}[one.kind]
    value = f":{one.value.lower()}:{done}" if one.value else ""
    letter, name = f"-{one.letter}" + "+" * bool(one.value), one.name + "=" * bool(one.value)
    rest = f"[{zsh_text(about(one))}]{value}'"
    if not one.letter:
        return f" \\\n        '{'*' * one.is_repeatable}{name}{rest}"
    front = "'*'" if one.is_repeatable else f"'({' '.join(one.spellings())})'"
    return f" \\\n        {front}{{{letter},{name}}}'{rest}"


def zsh_tool(rows):
    """The options of a tool, each as an argument of _arguments."""
    found = []
    for head, text in rows:
        spelt, value = spelt_of(head)
        rest = f"[{zsh_text(re.sub(r' [(]default: [^)]*[)]', '', text))}]" + (f":{value.lower()}: " if value else "")
        found += [f"'{each}{'=' if value else ''}{rest}'" for each in spelt]
    return found


def zsh(manual, tools):
    rest = {"fix": "", "bin": " \\\n        '*:program:_files'", "plan": "",
            "vendor": " \\\n        '1:crate files:_files -/' \\\n        '2:registry:_files -/'"}
    options = {place: "".join(zsh_option(one) for one in manual.of(place)) for place in ("front", "audit", *BEHIND)}
    deeper = lambda text: text.replace("\n        ", "\n                    ")
    behind = "".join(f"                {name}) _arguments -s -S :{deeper(options[name] + rest[name])} && ret=0 ;;\n" for name in BEHIND)
    mirror = zsh_tool(tools["cargo-audit-mirror"])
    fresh = [each for each in zsh_tool(tools["cargo-audit-fresh"]) if "help" not in each]
    return "#compdef cargo-audit cargo-audit-fresh cargo-audit-mirror\n" + MADE.format("zsh") + filled(
        ZSH, MIRROR=" \\\n                ".join(mirror), FRESH=" ".join(fresh), FRONT=options["front"].replace("\n        ", "\n                ").lstrip(), AUDIT=options["audit"].lstrip(), BEHIND=behind, GENERATE=zsh_text(ABOUT["generate"]),
        COMMANDS=" ".join(f"'{name}:{zsh_text(ABOUT[name])}'" for name in BEHIND))


# ---- fish

FISH = r"""
# Where the words in front of the cursor lead: `front` without audit, `first` right behind it, `none`
# behind options of a baseline, the command that was met, else `audit`. Nothing for other commands of cargo.
function __cargo_audit_place
    set -l words (commandline -opc)
    if test (count $words) -lt 2
        string match -q '*cargo-audit' -- $words[1]; and echo front
        return
    end
    test "$words[2]" = audit; or return
    if test (count $words) -eq 2
        echo first
        return
    end
    set -l place audit
    set -l is_value no
    for word in $words[3..-1]
        if test $is_value = yes
            set is_value no
            continue
        end
        switch $word
            case @ENDS@
                set place none
        end
        switch $word
            case @VALUED@
                set is_value yes
            case '-*'
            case '*'
                echo $word
                return
        end
    end
    echo $place
end

function __cargo_audit_is
    contains -- (__cargo_audit_place) $argv
end

"""


def fish_word(text):
    return "'" + text.replace("\\", "\\\\").replace("'", "\\'") + "'"


def fish_option(one):
    places = {"front": "front", "audit": "first audit none"}.get(one.place, one.place)
    if one.name == "--":
        return ""
    line = f"complete -c $program -n '__cargo_audit_is {places}'" + f" -s {one.letter}" * bool(one.letter) + f" -l {one.name[2:]}"
    line += {"words": f" -x -a {fish_word(' '.join(one.values))}", "file": " -r -F", "folder": " -x -a '(__fish_complete_directories)'", "text": " -x", "": ""}[one.kind]
    return f"    {line} -d {fish_word(about(one))}\n"


def fish_tool(program, rows):
    text = ""
    for head, about_it in rows:
        spelt, value = spelt_of(head)
        names = "".join(f" -l {each[2:]}" if each.startswith("--") else f" -s {each[1:]}" for each in spelt)
        text += f"complete -c {program}{names}{' -x' if value else ''} -d {fish_word(about_it)}\n"
    return text


def fish(manual, tools):
    valued = sorted({each for one in manual.options if one.value for each in one.spellings()})
    text = filled(FISH, ENDS=" ".join(f"'{each}*'" for each in ENDS), VALUED=" ".join(valued))
    text += "for program in cargo-audit cargo\n"
    text += "    complete -c $program -f -n '__cargo_audit_is front first audit none fix plan vendor generate'\n"
    text += "    complete -c $program -n '__cargo_audit_is front' -a audit\n"
    text += "".join(f"    complete -c $program -n '__cargo_audit_is first audit' -a {name} -d {fish_word(ABOUT[name])}\n" for name in BEHIND)
    text += f"    complete -c $program -n '__cargo_audit_is first' -a generate -d {fish_word(ABOUT['generate'])}\n"
    text += "    complete -c $program -n '__cargo_audit_is bin' -F\n"
    text += "    complete -c $program -n '__cargo_audit_is vendor' -a '(__fish_complete_directories)'\n"
    text += "".join(fish_option(one) for one in manual.options)
    text += "end\ncomplete -c cargo-audit-fresh -w 'cargo-audit audit'\n"
    text += "".join(fish_tool(program, rows) for program, rows in tools.items())
    return MADE.format("fish") + text
