# Completions of cargo-audit for fish, made by bench/manual; not to be changed by hand.

# Where the words in front of the cursor lead: `front` without audit, `first` right behind it, `none`
# behind options of a baseline, the command that was met, else `audit`. Nothing for other commands of cargo.
function __cargo_audit_place
    set -l words (commandline -opc)
    if test (count $words) -lt 2
        string match -q '*cargo-audit' -- $words[1]; and echo front
        return
    end
    test "$words[2]" = audit; or return
    if test (count $words) -eq 2
        echo first
        return
    end
    set -l place audit
    set -l is_value no
    for word in $words[3..-1]
        if test $is_value = yes
            set is_value no
            continue
        end
        switch $word
            case '--baseline*' '--write-baseline*'
                set place none
        end
        switch $word
            case --audit-data-size-limit --baseline --color --db --deny --file --format --ignore --max-binary-size --target-arch --target-os --url --write-baseline -D -c -d -f -u
                set is_value yes
            case '-*'
            case '*'
                echo $word
                return
        end
    end
    echo $place
end

function __cargo_audit_is
    contains -- (__cargo_audit_place) $argv
end

for program in cargo-audit cargo
    complete -c $program -f -n '__cargo_audit_is front first audit none fix plan vendor generate'
    complete -c $program -n '__cargo_audit_is front' -a audit
    complete -c $program -n '__cargo_audit_is first audit' -a fix -d 'the report, and the updates of what is vulnerable'
    complete -c $program -n '__cargo_audit_is first audit' -a bin -d 'files that hold a lockfile'
    complete -c $program -n '__cargo_audit_is first audit' -a plan -d 'the version that each vulnerable package may go to'
    complete -c $program -n '__cargo_audit_is first audit' -a vendor -d 'a local registry of what was audited'
    complete -c $program -n '__cargo_audit_is first' -a generate -d 'made packages, audited twice in memory'
    complete -c $program -n '__cargo_audit_is bin' -F
    complete -c $program -n '__cargo_audit_is vendor' -a '(__fish_complete_directories)'
    complete -c $program -n '__cargo_audit_is front' -s v -l verbose -d 'read, but not used'
    complete -c $program -n '__cargo_audit_is front' -s h -l help -d 'print the help'
    complete -c $program -n '__cargo_audit_is front' -s V -l version -d 'print the version'
    complete -c $program -n '__cargo_audit_is first audit none' -s c -l color -x -a 'always auto never' -d 'read, and not used'
    complete -c $program -n '__cargo_audit_is first audit none' -s d -l db -x -a '(__fish_complete_directories)' -d 'the folder of the advisories'
    complete -c $program -n '__cargo_audit_is first audit none' -s D -l deny -x -a 'warnings unmaintained unsound yanked' -d 'what makes the audit fail besides vulnerabilities'
    complete -c $program -n '__cargo_audit_is first audit none' -s f -l file -r -F -d 'the lockfile, - for standard input'
    complete -c $program -n '__cargo_audit_is first audit none' -l ignore -x -d 'the id of an advisory that is left out'
    complete -c $program -n '__cargo_audit_is first audit none' -l target-arch -x -d 'an architecture that counts'
    complete -c $program -n '__cargo_audit_is first audit none' -l target-os -x -d 'a system that counts'
    complete -c $program -n '__cargo_audit_is first audit none' -s u -l url -x -d 'read, and not used'
    complete -c $program -n '__cargo_audit_is first audit none' -l format -x -a 'json sarif terminal' -d 'the form of the report'
    complete -c $program -n '__cargo_audit_is first audit none' -l no-yanked -d 'no check for yanked versions'
    complete -c $program -n '__cargo_audit_is first audit none' -s n -l no-fetch -d 'the index isn\'t asked, only its cache'
    complete -c $program -n '__cargo_audit_is first audit none' -l stale -d 'read, and not used'
    complete -c $program -n '__cargo_audit_is first audit none' -s q -l quiet -d 'fewer status lines, and no trees'
    complete -c $program -n '__cargo_audit_is first audit none' -l json -d 'the form json, also with --format'
    complete -c $program -n '__cargo_audit_is first audit none' -l verdicts -d 'for each package whether it is yanked, and no report'
    complete -c $program -n '__cargo_audit_is first audit none' -l baseline -r -F -d 'the findings that aren\'t in this file, and no report'
    complete -c $program -n '__cargo_audit_is first audit none' -l write-baseline -r -F -d 'the findings go to this file, and no report is printed'
    complete -c $program -n '__cargo_audit_is first audit none' -s h -l help -d 'print the help'
    complete -c $program -n '__cargo_audit_is first audit none' -s V -l version -d 'print the version'
    complete -c $program -n '__cargo_audit_is fix' -s f -l file -r -F -d 'the lockfile'
    complete -c $program -n '__cargo_audit_is fix' -l dry-run -d 'the updates would be started with --dry-run'
    complete -c $program -n '__cargo_audit_is fix' -s h -l help -d 'print the help'
    complete -c $program -n '__cargo_audit_is bin' -l max-binary-size -x -d 'bytes that a file may have, 0 for any number'
    complete -c $program -n '__cargo_audit_is bin' -l audit-data-size-limit -x -d 'bytes that its lockfile may have'
    complete -c $program -n '__cargo_audit_is bin' -s h -l help -d 'print the help'
    complete -c $program -n '__cargo_audit_is plan' -s h -l help -d 'print the help'
    complete -c $program -n '__cargo_audit_is vendor' -s h -l help -d 'print the help'
end
complete -c cargo-audit-fresh -w 'cargo-audit audit'
complete -c cargo-audit-fresh -l index -x -d 'where the index files are (default: https://index.crates.io)'
complete -c cargo-audit-fresh -l timeout -x -d 'how long a server may be silent (default: 60)'
complete -c cargo-audit-fresh -s h -l help -d 'print the help, as the first argument'
complete -c cargo-audit-mirror -l age -d 'ask nothing: print how long ago the oldest file was asked for, and which crates have none'
complete -c cargo-audit-mirror -l index -x -d 'where the index files are (default: https://index.crates.io)'
complete -c cargo-audit-mirror -l timeout -x -d 'how long the server may be silent (default: 60)'
complete -c cargo-audit-mirror -s h -l help -d 'print the help'
